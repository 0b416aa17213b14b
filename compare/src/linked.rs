//! The calls of the static libraries `probe`, `host` and `mender`, where they were there when this was built.

use crate::subject::{Host, Judge, Mender, Texts};

#[cfg(has_text)]
mod text_calls {
    use crate::refusal::Part;
    use crate::subject::Texts;

    extern "C" {
        fn probe_read_book(text: *const u8, len: usize, out: *mut u8, out_len: usize) -> u64;
        fn probe_read_request(text: *const u8, len: usize, out: *mut u8, out_len: usize) -> u64;
        fn probe_write_book(book: *const u8, len: usize, out: *mut u8, out_len: usize) -> u64;
        fn probe_write_request(request: *const u8, len: usize, out: *mut u8, out_len: usize) -> u64;
    }

    pub struct Linked;

    impl Texts for Linked {
        fn read(&self, part: Part, text: &[u8], out: &mut [u8]) -> u64 {
            let call = if part == Part::Book { probe_read_book } else { probe_read_request };
            unsafe { call(text.as_ptr(), text.len(), out.as_mut_ptr(), out.len()) }
        }

        fn write(&self, part: Part, bytes: &[u8], out: &mut [u8]) -> u64 {
            let call = if part == Part::Book { probe_write_book } else { probe_write_request };
            unsafe { call(bytes.as_ptr(), bytes.len(), out.as_mut_ptr(), out.len()) }
        }
    }
}

#[cfg(has_judge)]
mod judge_calls {
    use crate::subject::Judge;

    extern "C" {
        fn probe_judge_book(book: *const u8, len: usize) -> u64;
        fn probe_judge_request(request: *const u8, len: usize) -> u64;
    }

    pub struct Linked;

    impl Judge for Linked {
        fn judge_book(&self, book: &[u8]) -> u64 {
            unsafe { probe_judge_book(book.as_ptr(), book.len()) }
        }

        fn judge_request(&self, request: &[u8]) -> u64 {
            unsafe { probe_judge_request(request.as_ptr(), request.len()) }
        }
    }
}

#[cfg(has_host)]
mod host_calls {
    use crate::subject::Host;

    extern "C" {
        fn bachumoi_decide(
            book: *const u8,
            book_len: usize,
            request: *const u8,
            request_len: usize,
            out: *mut u8,
            out_len: usize,
        ) -> u64;
    }

    pub struct Linked;

    impl Host for Linked {
        fn decide(&self, book: &[u8], request: &[u8], out: &mut [u8]) -> u64 {
            let (place, room) = (out.as_mut_ptr(), out.len());
            unsafe { bachumoi_decide(book.as_ptr(), book.len(), request.as_ptr(), request.len(), place, room) }
        }
    }
}

#[cfg(has_salvage)]
mod mender_calls {
    use crate::subject::Mender;

    extern "C" {
        fn probe_zero_wrong(text: *mut u8, len: usize);
        fn bachumoi_salvage(
            book: *const u8,
            book_len: usize,
            mended: *mut u8,
            mended_len: usize,
            replaced: *mut u8,
            replaced_len: usize,
        ) -> u64;
    }

    pub struct Linked;

    impl Mender for Linked {
        fn zero_wrong(&self, text: &mut [u8]) {
            unsafe { probe_zero_wrong(text.as_mut_ptr(), text.len()) }
        }

        fn salvage(&self, book: &[u8], mended: &mut [u8], replaced: &mut [u8]) -> u64 {
            let (place, room) = (mended.as_mut_ptr(), mended.len());
            let (list, length) = (replaced.as_mut_ptr(), replaced.len());
            unsafe { bachumoi_salvage(book.as_ptr(), book.len(), place, room, list, length) }
        }
    }
}

pub fn texts() -> Option<&'static dyn Texts> {
    #[cfg(has_text)]
    return Some(&text_calls::Linked);
    #[cfg(not(has_text))]
    None
}

pub fn judge() -> Option<&'static dyn Judge> {
    #[cfg(has_judge)]
    return Some(&judge_calls::Linked);
    #[cfg(not(has_judge))]
    None
}

pub fn host() -> Option<&'static dyn Host> {
    #[cfg(has_host)]
    return Some(&host_calls::Linked);
    #[cfg(not(has_host))]
    None
}

pub fn mender() -> Option<&'static dyn Mender> {
    #[cfg(has_salvage)]
    return Some(&mender_calls::Linked);
    #[cfg(not(has_salvage))]
    None
}
