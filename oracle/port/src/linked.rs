//! The trait over the exported functions.
use cda_storage_sys::{self as sys, Output};
use store::{Out, Store};

pub struct Port;

fn lent<'a>(out: &'a mut Out) -> Output<'a> {
    Output { bytes: out.bytes, written: &mut out.written }
}

impl Store for Port {
    fn name(&self) -> &'static str {
        "port"
    }
    fn begin(&self, image: &[u8], out: &mut Out) -> u32 {
        sys::begin(image, lent(out))
    }
    fn write(&self, image: &[u8], collection: &[u8], key: &[u8], staged: &[u8], number: u32, out: &mut Out) -> u32 {
        sys::write(image, collection, key, staged, number, lent(out))
    }
    fn delete(&self, image: &[u8], collection: &[u8], key: &[u8], out: &mut Out) -> u32 {
        sys::delete(image, collection, key, lent(out))
    }
    fn delete_all(&self, image: &[u8], collection: &[u8], out: &mut Out) -> u32 {
        sys::delete_all(image, collection, lent(out))
    }
    fn create_collection(&self, image: &[u8], name: &[u8], out: &mut Out) -> u32 {
        sys::create_collection(image, name, lent(out))
    }
    fn delete_collection(&self, image: &[u8], name: &[u8], out: &mut Out) -> u32 {
        sys::delete_collection(image, name, lent(out))
    }
    fn copy_collection(&self, image: &[u8], source: &[u8], dest: &[u8], out: &mut Out) -> u32 {
        sys::copy_collection(image, source, dest, lent(out))
    }
    fn commit(&self, image: &[u8], out: &mut Out) -> u32 {
        sys::commit(image, lent(out))
    }
    fn commit_step(&self, image: &[u8], n: u64, out: &mut Out, step: &mut Out) -> u32 {
        sys::commit_step(image, n, lent(out), lent(step))
    }
    fn rollback(&self, image: &[u8], out: &mut Out) -> u32 {
        sys::rollback(image, lent(out))
    }
    fn has_pending_work(&self, image: &[u8], pending: &mut u32) -> u32 {
        sys::has_pending_work(image, pending)
    }
    fn recover(&self, image: &[u8], out: &mut Out, cause: &mut u32) -> u32 {
        sys::recover(image, lent(out), cause)
    }
    fn recover_step(&self, image: &[u8], n: u64, out: &mut Out, step: &mut Out) -> u32 {
        sys::recover_step(image, n, lent(out), lent(step))
    }
    fn list_keys(&self, image: &[u8], collection: &[u8], out: &mut Out) -> u32 {
        sys::list_keys(image, collection, lent(out))
    }
    fn find_backup(&self, image: &[u8], out: &mut Out) -> u32 {
        sys::find_backup(image, lent(out))
    }
    fn log_cause(&self, log: &[u8], cause: &mut u32) -> u32 {
        sys::log_cause(log, cause)
    }
    fn inventory(&self, image: &[u8], out: &mut Out) -> u32 {
        sys::inventory(image, lent(out))
    }
    fn hold(&self, image: &[u8], out: &mut Out) -> u32 {
        sys::hold(image, lent(out))
    }
    fn hold_step(&self, image: &[u8], n: u64, out: &mut Out, step: &mut Out) -> u32 {
        sys::hold_step(image, n, lent(out), lent(step))
    }
    fn keep(&self, image: &[u8], out: &mut Out) -> u32 {
        sys::keep(image, lent(out))
    }
    fn keep_step(&self, image: &[u8], n: u64, out: &mut Out, step: &mut Out) -> u32 {
        sys::keep_step(image, n, lent(out), lent(step))
    }
    fn revert(&self, image: &[u8], out: &mut Out, cause: &mut u32) -> u32 {
        sys::revert(image, lent(out), cause)
    }
    fn revert_step(&self, image: &[u8], n: u64, out: &mut Out, step: &mut Out) -> u32 {
        sys::revert_step(image, n, lent(out), lent(step))
    }
}
