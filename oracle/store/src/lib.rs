//! The exported entries as a trait, so that the port, the original and the plain reading take the same calls, and
//! the one way in which all of them are asked.
mod call;

pub use call::{Answer, Call, Lent, Plan, ask, pass};

pub type Name = Vec<u8>;

/// Least lengths of the lent outputs (refusal 2). 02, item 4: "the image limit and least output of refusal 2 become 19,390".
pub const IMAGE_ROOM: usize = 19_390;
pub const KEYS_ROOM: usize = 8_576;
pub const STEP_ROOM: usize = 197;
/// 02, item 2: the fields of a directory and of a file, with names of 64 bytes.
pub const HIT_ROOM: usize = 138;
/// 02, item 9: the longest inventory, of 16 directories and 128 files with names of 64 bytes, as many double quotes in them as can be.
pub const INVENTORY_ROOM: usize = 20_178;

/// What the original answers where it has no rule of its own and nothing to say: the number is document 01's alone.
pub const NO_OPINION: u32 = 99;

/// A lent output and its counter of written bytes.
pub struct Out<'a> {
    pub bytes: &'a mut [u8],
    pub written: usize,
}

impl Out<'_> {
    pub fn put(&mut self, bytes: &[u8]) {
        self.bytes[..bytes.len()].copy_from_slice(bytes);
        self.written = bytes.len();
    }
}

pub trait Store {
    fn name(&self) -> &'static str;

    fn begin(&self, image: &[u8], out: &mut Out) -> u32;
    fn write(&self, image: &[u8], collection: &[u8], key: &[u8], staged: &[u8], number: u32, out: &mut Out) -> u32;
    fn delete(&self, image: &[u8], collection: &[u8], key: &[u8], out: &mut Out) -> u32;
    fn delete_all(&self, image: &[u8], collection: &[u8], out: &mut Out) -> u32;
    fn create_collection(&self, image: &[u8], name: &[u8], out: &mut Out) -> u32;
    fn delete_collection(&self, image: &[u8], name: &[u8], out: &mut Out) -> u32;
    fn copy_collection(&self, image: &[u8], source: &[u8], dest: &[u8], out: &mut Out) -> u32;
    fn commit(&self, image: &[u8], out: &mut Out) -> u32;
    fn commit_step(&self, image: &[u8], n: u64, out: &mut Out, step: &mut Out) -> u32;
    fn rollback(&self, image: &[u8], out: &mut Out) -> u32;
    fn has_pending_work(&self, image: &[u8], pending: &mut u32) -> u32;
    fn recover(&self, image: &[u8], out: &mut Out, cause: &mut u32) -> u32;
    fn recover_step(&self, image: &[u8], n: u64, out: &mut Out, step: &mut Out) -> u32;
    fn list_keys(&self, image: &[u8], collection: &[u8], out: &mut Out) -> u32;
    fn find_backup(&self, image: &[u8], out: &mut Out) -> u32;
    fn log_cause(&self, log: &[u8], cause: &mut u32) -> u32;
    fn inventory(&self, image: &[u8], out: &mut Out) -> u32;
    fn hold(&self, image: &[u8], out: &mut Out) -> u32;
    fn hold_step(&self, image: &[u8], n: u64, out: &mut Out, step: &mut Out) -> u32;
    fn keep(&self, image: &[u8], out: &mut Out) -> u32;
    fn keep_step(&self, image: &[u8], n: u64, out: &mut Out, step: &mut Out) -> u32;
    fn revert(&self, image: &[u8], out: &mut Out, cause: &mut u32) -> u32;
    fn revert_step(&self, image: &[u8], n: u64, out: &mut Out, step: &mut Out) -> u32;

    /// The whole answer, and the answers of the step entry for n = 0, 1, .. up to the first refusal, which is 16 past the end.
    fn plan(&self, plan: Plan, image: &[u8]) -> (Answer, Vec<Answer>) {
        let mut steps = Vec::new();
        loop {
            let answer = ask(self, &plan.step(steps.len() as u64), image, Lent::AMPLE);
            let over = answer.number != 0;
            steps.push(answer);
            if over {
                return (ask(self, &plan.whole(), image, Lent::AMPLE), steps);
            }
        }
    }
}
