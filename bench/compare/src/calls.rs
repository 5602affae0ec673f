//! The C calls of both routers.

use plain::c::RuleLine;

/// A router, by its C calls. Answers are one number, as the header of the proved library says.
pub trait Router {
    const NAME: &'static str;
    fn bytes() -> usize;
    unsafe fn begin(room: *mut u8, bytes: usize) -> u64;
    unsafe fn end(tree: *mut u8);
    unsafe fn set_full(tree: *mut u8, levels: u16, lines: &[RuleLine]) -> u64;
    unsafe fn set_wired(tree: *mut u8, table: &[u8], lines: &[RuleLine]) -> u64;
    unsafe fn send(tree: *mut u8, card: u16, packet: &[u32]) -> u64;
    unsafe fn fire(tree: *mut u8, card: u16, station: u8, input: u8) -> u64;
    unsafe fn take(tree: *mut u8, card: u16) -> u64;
    unsafe fn owed(tree: *const u8) -> u64;
    unsafe fn order(tree: *const u8, sender: u16, cards: &[u16]) -> u64;
}

/// The same impl over the C functions of either library.
macro_rules! router {
    ($name:ident, $shown:literal, $ended:expr, $bytes:ident, $begin:ident, $set_full:ident, $set_wired:ident, $send:ident, $fire:ident, $take:ident, $owed:ident, $order:ident) => {
        pub struct $name;

        extern "C" {
            fn $bytes() -> usize;
            fn $begin(room: *mut u8, bytes: usize) -> u64;
            fn $set_full(tree: *mut u8, levels: u16, lines: *const RuleLine, count: usize) -> u64;
            fn $set_wired(
                tree: *mut u8,
                table: *const u8,
                len: usize,
                lines: *const RuleLine,
                count: usize,
            ) -> u64;
            fn $send(tree: *mut u8, card: u16, packet: *const u32, len: usize) -> u64;
            fn $fire(tree: *mut u8, card: u16, station: u8, input: u8) -> u64;
            fn $take(tree: *mut u8, card: u16) -> u64;
            fn $owed(tree: *const u8) -> u64;
            fn $order(tree: *const u8, sender: u16, cards: *const u16, len: usize) -> u64;
        }

        impl Router for $name {
            const NAME: &'static str = $shown;

            fn bytes() -> usize {
                unsafe { $bytes() }
            }

            unsafe fn begin(room: *mut u8, bytes: usize) -> u64 {
                $begin(room, bytes)
            }

            unsafe fn end(tree: *mut u8) {
                $ended(tree);
            }

            unsafe fn set_full(tree: *mut u8, levels: u16, lines: &[RuleLine]) -> u64 {
                $set_full(tree, levels, lines.as_ptr(), lines.len())
            }

            unsafe fn set_wired(tree: *mut u8, table: &[u8], lines: &[RuleLine]) -> u64 {
                $set_wired(
                    tree,
                    table.as_ptr(),
                    table.len(),
                    lines.as_ptr(),
                    lines.len(),
                )
            }

            #[inline(always)]
            unsafe fn send(tree: *mut u8, card: u16, packet: &[u32]) -> u64 {
                $send(tree, card, packet.as_ptr(), packet.len())
            }

            #[inline(always)]
            unsafe fn fire(tree: *mut u8, card: u16, station: u8, input: u8) -> u64 {
                $fire(tree, card, station, input)
            }

            #[inline(always)]
            unsafe fn take(tree: *mut u8, card: u16) -> u64 {
                $take(tree, card)
            }

            #[inline(always)]
            unsafe fn owed(tree: *const u8) -> u64 {
                $owed(tree)
            }

            #[inline(always)]
            unsafe fn order(tree: *const u8, sender: u16, cards: &[u16]) -> u64 {
                $order(tree, sender, cards.as_ptr(), cards.len())
            }
        }
    };
}

extern "C" {
    fn plain_end(tree: *mut u8);
}

/// The proved tree holds nothing beside its own memory.
unsafe fn nothing(_tree: *mut u8) {}

router!(
    Plain,
    "plain",
    plain_end,
    plain_bytes,
    plain_begin,
    plain_full,
    plain_wired,
    plain_send,
    plain_fire,
    plain_take,
    plain_owed,
    plain_order
);

router!(
    Proved, "proved", nothing, zel_bytes, zel_begin, zel_full, zel_wired, zel_send, zel_fire,
    zel_take, zel_owed, zel_order
);

/// A tree of either router, in memory of its own.
pub struct Held<R: Router> {
    memory: Vec<u64>,
    router: std::marker::PhantomData<R>,
}

impl<R: Router> Held<R> {
    pub fn new() -> Held<R> {
        let bytes = R::bytes();
        let mut memory = vec![0; bytes / 8 + 1];
        assert_eq!(unsafe { R::begin(memory.as_mut_ptr().cast(), bytes) }, 0);
        Held {
            memory,
            router: std::marker::PhantomData,
        }
    }

    pub fn at(&mut self) -> *mut u8 {
        self.memory.as_mut_ptr().cast()
    }
}

impl<R: Router> Drop for Held<R> {
    fn drop(&mut self) {
        unsafe { R::end(self.memory.as_mut_ptr().cast()) };
    }
}
