/* Made from host/sys/entries.txt and refusals.txt by `cargo run -p cda-storage-sys --example header`. */
#ifndef CDA_STORAGE_H
#define CDA_STORAGE_H

#include <stddef.h>
#include <stdint.h>

#ifdef __cplusplus
extern "C" {
#endif

/* Least lengths of the lent outputs (an image, a key list, a step field, what names a backup), one that every inventory fits, and the most bytes of a
   log. */
#define CDA_STORAGE_IMAGE_ROOM 19390
#define CDA_STORAGE_KEYS_ROOM 8576
#define CDA_STORAGE_STEP_ROOM 197
#define CDA_STORAGE_HIT_ROOM 138
#define CDA_STORAGE_INVENTORY_ROOM 20178
#define CDA_STORAGE_LOG_LIMIT 6952

/* What the functions return: 0, or a refusal, which leaves outputs, counters and causes as they were (but for 14 and 15 of a commit or a hold). */
enum cda_storage_number {
    CDA_STORAGE_DONE = 0,
    /* the image breaks its layout or a limit */
    CDA_STORAGE_INVALID_IMAGE = 1,
    /* the lent output is too short for the answer */
    CDA_STORAGE_OUTPUT_TOO_SHORT = 2,
    /* a transaction is open already */
    CDA_STORAGE_TRANSACTION_BUSY = 3,
    /* no transaction is open, or its log is not a whole Recording log of at most 32 operations */
    CDA_STORAGE_NO_TRANSACTION = 4,
    /* the transaction has 32 operations, which is the most */
    CDA_STORAGE_TOO_MANY_OPERATIONS = 5,
    /* a name is not valid: 1 to 64 printable ASCII bytes without space, / and \, and not ., .., ..bak or ...bak */
    CDA_STORAGE_INVALID_NAME = 6,
    /* the collection to delete or to copy from is missing */
    CDA_STORAGE_COLLECTION_NOT_FOUND = 7,
    /* the key to delete is missing */
    CDA_STORAGE_KEY_NOT_FOUND = 8,
    /* the collection to create exists */
    CDA_STORAGE_COLLECTION_EXISTS = 9,
    /* a staging file of that name stands, 32 staging files stand, or the content number is 0 */
    CDA_STORAGE_STAGING_REFUSED = 10,
    /* the log of an interrupted commit has an entry with the right checksum that does not decode: no damage but another program's log, the original's for one; let that program recover */
    CDA_STORAGE_UNDECODABLE_PAYLOAD = 11,
    /* the log of an interrupted commit goes on after 32 operations */
    CDA_STORAGE_LOG_TOO_LONG = 12,
    /* the log of an interrupted commit is torn, and operations were or may have been applied */
    CDA_STORAGE_CORRUPTION = 13,
    /* a step of the commit fails: staged content or a copy's source missing, a backup name over 64 bytes, or a directory in the way that is not empty; the transaction was rolled back */
    CDA_STORAGE_STEP_FAILED = 14,
    /* a step of the commit needs a 17th directory or a 129th file; the transaction was rolled back */
    CDA_STORAGE_STORE_FULL = 15,
    /* the step number is past the plan's end */
    CDA_STORAGE_PAST_THE_END = 16,
    /* an update is held: keep it or revert it before the next one is begun */
    CDA_STORAGE_HELD_UPDATE = 17,
    /* no update is held, so there is nothing to keep or to revert */
    CDA_STORAGE_NOTHING_HELD = 18,
    /* the collection current is missing, so there is nothing to rotate */
    CDA_STORAGE_CURRENT_MISSING = 19,
    /* the collection next is missing or has no file, so there is nothing to rotate to */
    CDA_STORAGE_NEXT_MISSING = 20,
    /* the log has no valid header, or is truncated where a whole one is asked for */
    CDA_STORAGE_NO_WHOLE_LOG = 21
};

/* How a log broke, as a function tells it that returned 0: the first entry that is not whole. 1 and 2 suggest that writing stopped, as on a full
   flash, 3 that written bytes changed, as on a worn one. */
enum cda_storage_cause {
    CDA_STORAGE_NOT_BROKEN = 0,
    /* under 8 bytes are left for the entry's checksum and length */
    CDA_STORAGE_HEADER_SHORT = 1,
    /* the entry's length is 0 or goes past the end */
    CDA_STORAGE_PAYLOAD_MISSING = 2,
    /* the entry's checksum is not that of its payload */
    CDA_STORAGE_CHECKSUM_WRONG = 3
};

/* Begins a transaction: a fresh Recording log and the open mark. */
uint32_t cda_storage_begin(
    const uint8_t *image, size_t image_len,
    uint8_t *out, size_t out_len, size_t *out_written);

/* Records a Write of the staged content to a key, which is lowered, with a mark whether the key's file stands, and adds the staging file with this number. */
uint32_t cda_storage_write(
    const uint8_t *image, size_t image_len,
    const uint8_t *collection, size_t collection_len,
    const uint8_t *key, size_t key_len,
    const uint8_t *staged, size_t staged_len,
    uint32_t number,
    uint8_t *out, size_t out_len, size_t *out_written);

/* Records a Delete of a key, which is lowered. A file of that name in other letter cases is renamed at once. */
uint32_t cda_storage_delete(
    const uint8_t *image, size_t image_len,
    const uint8_t *collection, size_t collection_len,
    const uint8_t *key, size_t key_len,
    uint8_t *out, size_t out_len, size_t *out_written);

/* Records a Delete of each key of a set, all or none: 1 to 32 fields 0x03 one behind the other. Each key is lowered, and a repeated one counts once, at its first place. Files of these names in other letter cases are renamed at once. 6 is also given for other bytes, for no key and for over 32 fields, before 5 is tested. */
uint32_t cda_storage_delete_keys(
    const uint8_t *image, size_t image_len,
    const uint8_t *collection, size_t collection_len,
    const uint8_t *keys, size_t keys_len,
    uint8_t *out, size_t out_len, size_t *out_written);

/* Records the deletion of all files of a collection. */
uint32_t cda_storage_delete_all(
    const uint8_t *image, size_t image_len,
    const uint8_t *collection, size_t collection_len,
    uint8_t *out, size_t out_len, size_t *out_written);

/* Records the creation of a collection. */
uint32_t cda_storage_create_collection(
    const uint8_t *image, size_t image_len,
    const uint8_t *name, size_t name_len,
    uint8_t *out, size_t out_len, size_t *out_written);

/* Records the deletion of a collection. */
uint32_t cda_storage_delete_collection(
    const uint8_t *image, size_t image_len,
    const uint8_t *name, size_t name_len,
    uint8_t *out, size_t out_len, size_t *out_written);

/* Records the copy of a collection, which replaces its destination. */
uint32_t cda_storage_copy_collection(
    const uint8_t *image, size_t image_len,
    const uint8_t *source, size_t source_len,
    const uint8_t *dest, size_t dest_len,
    uint8_t *out, size_t out_len, size_t *out_written);

/* Commits the transaction, whole. 14 and 15 also hand back the rolled-back image. */
uint32_t cda_storage_commit(
    const uint8_t *image, size_t image_len,
    uint8_t *out, size_t out_len, size_t *out_written);

/* The image after n steps of the commit, and field n (none for n = 0). */
uint32_t cda_storage_commit_step(
    const uint8_t *image, size_t image_len,
    uint64_t n,
    uint8_t *out, size_t out_len, size_t *out_written,
    uint8_t *step, size_t step_len, size_t *step_written);

/* Discards the transaction. */
uint32_t cda_storage_rollback(
    const uint8_t *image, size_t image_len,
    uint8_t *out, size_t out_len, size_t *out_written);

/* Whether an interrupted transaction left work for recovery. */
uint32_t cda_storage_has_pending_work(
    const uint8_t *image, size_t image_len,
    uint32_t *pending);

/* Recovers what an interrupted transaction left, whole. The cause says how the log broke, if a truncated Committing one was discarded; else it is 0. */
uint32_t cda_storage_recover(
    const uint8_t *image, size_t image_len,
    uint8_t *out, size_t out_len, size_t *out_written,
    uint32_t *cause);

/* The image after n steps of the recovery, and field n (none for n = 0). */
uint32_t cda_storage_recover_step(
    const uint8_t *image, size_t image_len,
    uint64_t n,
    uint8_t *out, size_t out_len, size_t *out_written,
    uint8_t *step, size_t step_len, size_t *step_written);

/* The keys of a collection, lowered, as fields 0x03. */
uint32_t cda_storage_list_keys(
    const uint8_t *image, size_t image_len,
    const uint8_t *collection, size_t collection_len,
    uint8_t *out, size_t out_len, size_t *out_written);

/* The first backup file in the order of the image, as the fields 0x10 of its directory and 0x11; if no file is one, the first directory with a backup's name, as its field 0x10; nothing if no backup stands. */
uint32_t cda_storage_find_backup(
    const uint8_t *image, size_t image_len,
    uint8_t *out, size_t out_len, size_t *out_written);

/* Reads a log, the bytes of journal/transaction.wal, and says how it broke; the cause is 0 if it is whole. Returns 1 for one over CDA_STORAGE_LOG_LIMIT bytes, 21 for one without a valid header, and 11 and 12 whatever its status. */
uint32_t cda_storage_log_cause(
    const uint8_t *log, size_t log_len,
    uint32_t *cause);

/* The log with the same status and operations and zeros in bytes 2 and 3: the same bytes for every log that has them. Returns 1 for one over CDA_STORAGE_LOG_LIMIT bytes, 2 for an output shorter than the log, 21 for one without a valid header or truncated, and 11 and 12 whatever its status. */
uint32_t cda_storage_canonical_log(
    const uint8_t *log, size_t log_len,
    uint8_t *out, size_t out_len, size_t *out_written);

/* The collections as one object of JSON (RFC 8259) without spaces or line ends: each directory's name with an object of its files' names and content numbers. Refusal 2 means that this text is longer than the output; CDA_STORAGE_INVENTORY_ROOM bytes are always enough. */
uint32_t cda_storage_inventory(
    const uint8_t *image, size_t image_len,
    uint8_t *out, size_t out_len, size_t *out_written);

/* Commits the transaction and holds it: as commit, but the log stays, marked Held, and so do the backups. 14 and 15 also hand back the rolled-back image. */
uint32_t cda_storage_hold(
    const uint8_t *image, size_t image_len,
    uint8_t *out, size_t out_len, size_t *out_written);

/* The image after n steps of the held commit, and field n (none for n = 0). 0x20 comes twice: the header's bytes are those of the image after the step. */
uint32_t cda_storage_hold_step(
    const uint8_t *image, size_t image_len,
    uint64_t n,
    uint8_t *out, size_t out_len, size_t *out_written,
    uint8_t *step, size_t step_len, size_t *step_written);

/* Accepts the held update, whole: the log goes, then every backup. */
uint32_t cda_storage_keep(
    const uint8_t *image, size_t image_len,
    uint8_t *out, size_t out_len, size_t *out_written);

/* The image after n steps of the keep, and field n (none for n = 0). At n = 0 its number says whether an update is held: 0, or 18. */
uint32_t cda_storage_keep_step(
    const uint8_t *image, size_t image_len,
    uint64_t n,
    uint8_t *out, size_t out_len, size_t *out_written,
    uint8_t *step, size_t step_len, size_t *step_written);

/* Takes the held update back, whole, as recovery undoes a commit. The cause says how the log broke, if it was truncated and nothing but it was discarded; else it is 0. */
uint32_t cda_storage_revert(
    const uint8_t *image, size_t image_len,
    uint8_t *out, size_t out_len, size_t *out_written,
    uint32_t *cause);

/* The image after n steps of the revert, and field n (none for n = 0). A revert that was begun must be finished: keep after a part of its steps loses keys. */
uint32_t cda_storage_revert_step(
    const uint8_t *image, size_t image_len,
    uint64_t n,
    uint8_t *out, size_t out_len, size_t *out_written,
    uint8_t *step, size_t step_len, size_t *step_written);

/* The update rotation: copies the collection current to backup and next to current, and deletes next, as one transaction that is begun, recorded and committed, whole. 19 and 20 come before anything is recorded; 14 and 15 also hand back the rolled-back image. On disk it is begin, copy_collection twice, delete_collection, then the steps of commit_step. It stands in librotation.a, beside the other functions' library. */
uint32_t cda_storage_rotate(
    const uint8_t *image, size_t image_len,
    uint8_t *out, size_t out_len, size_t *out_written);

#ifdef __cplusplus
}
#endif

#endif
