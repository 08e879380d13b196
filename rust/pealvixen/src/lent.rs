//! The library's functions as they are, on lent slices: what `include/pealvixen.h` declares, with a slice in place of
//! each pointer and length.
//!
//! Every length is the caller's to give, and an answer is the packed number: 0 for done, else number + 2^8 * first
//! place + 2^32 * second place, which [`unpack`] takes apart. The typed jobs of this crate need none of this; it is
//! for programs that hold their own buffers.

use crate::{Method, Refusal};
use library::{Calls, Library};

/// What a buffer is made of: words (`u32`), or bytes (`u8`), four to a word and low byte first.
pub trait Cell: Library {}

impl Cell for u32 {}
impl Cell for u8 {}

/// What a sheet's reader answers; kind, r, n and p are 0 on a refusal. Kind 1 is a system, 2 a basis, 3 an equation.
#[repr(C)]
#[derive(Clone, Copy, Debug, PartialEq, Eq)]
pub struct Sheet {
    pub answer: u64,
    pub kind: u64,
    pub r: u64,
    pub n: u64,
    pub p: u64,
}

/// What a sheet's writer answers: how many bytes of text it wrote, 0 on a refusal.
#[repr(C)]
#[derive(Clone, Copy, Debug, PartialEq, Eq)]
pub struct Text {
    pub answer: u64,
    pub length: u64,
}

/// Takes a packed answer apart.
///
/// ```
/// use pealvixen::{lent::unpack, Refusal};
///
/// assert_eq!(unpack(0), Ok(()));
/// assert_eq!(unpack(6 + (2 << 8) + (3 << 32)), Err(Refusal::Word { buffer: 2, index: 3 }));
/// ```
pub fn unpack(answer: u64) -> Result<(), Refusal> {
    Refusal::check(answer)
}

/// Declares functions of the archive: those that read three buffers and write two, or read two and write three.
macro_rules! archive {
    ($($name:ident: $cell:ty, $third:ident;)*) => {
        extern "C" {
            $(fn $name(
                r: u64,
                n: u64,
                p: u64,
                one: *const $cell,
                one_length: usize,
                two: *const $cell,
                two_length: usize,
                three: archive!($third $cell),
                three_length: usize,
                four: *mut $cell,
                four_length: usize,
                five: *mut $cell,
                five_length: usize,
            ) -> u64;)*
        }
    };
    (read $cell:ty) => { *const $cell };
    (written $cell:ty) => { *mut $cell };
}

archive! {
    pealvixen_system_halving: u32, read;
    pealvixen_system_newton: u32, read;
    pealvixen_basis: u32, written;
    pealvixen_equation_halving: u32, read;
    pealvixen_equation_newton: u32, read;
    pealvixen_system_halving_bytes: u8, read;
    pealvixen_system_newton_bytes: u8, read;
    pealvixen_basis_bytes: u8, written;
    pealvixen_equation_halving_bytes: u8, read;
    pealvixen_equation_newton_bytes: u8, read;
}

extern "C" {
    fn pealvixen_read_job(
        text: *const u8,
        text_length: usize,
        one: *mut u32,
        one_length: usize,
        two: *mut u32,
        two_length: usize,
        three: *mut u32,
        three_length: usize,
    ) -> Sheet;
    fn pealvixen_read_result(
        text: *const u8,
        text_length: usize,
        one: *mut u32,
        one_length: usize,
        two: *mut u32,
        two_length: usize,
    ) -> Sheet;
    fn pealvixen_write_system(
        r: u64,
        n: u64,
        p: u64,
        y: *const u32,
        y_length: usize,
        text: *mut u8,
        text_length: usize,
    ) -> Text;
    fn pealvixen_write_equation(
        r: u64,
        n: u64,
        p: u64,
        y: *const u32,
        y_length: usize,
        text: *mut u8,
        text_length: usize,
    ) -> Text;
    fn pealvixen_write_basis(
        r: u64,
        n: u64,
        p: u64,
        y: *const u32,
        y_length: usize,
        z: *const u32,
        z_length: usize,
        text: *mut u8,
        text_length: usize,
    ) -> Text;
}

/// Which functions serve words and which serve bytes. Outside of this crate there is no way to it.
mod library {
    type ReadsThree<C> = unsafe extern "C" fn(
        u64,
        u64,
        u64,
        *const C,
        usize,
        *const C,
        usize,
        *const C,
        usize,
        *mut C,
        usize,
        *mut C,
        usize,
    ) -> u64;

    type ReadsTwo<C> = unsafe extern "C" fn(
        u64,
        u64,
        u64,
        *const C,
        usize,
        *const C,
        usize,
        *mut C,
        usize,
        *mut C,
        usize,
        *mut C,
        usize,
    ) -> u64;

    pub struct Calls<C> {
        pub system_halving: ReadsThree<C>,
        pub system_newton: ReadsThree<C>,
        pub basis: ReadsTwo<C>,
        pub equation_halving: ReadsThree<C>,
        pub equation_newton: ReadsThree<C>,
    }

    pub trait Library: Copy + Default + 'static {
        /// How many cells make a word.
        const PER_WORD: usize;
        const CALLS: Calls<Self>;
    }

    impl Library for u32 {
        const PER_WORD: usize = 1;
        const CALLS: Calls<u32> = Calls {
            system_halving: super::pealvixen_system_halving,
            system_newton: super::pealvixen_system_newton,
            basis: super::pealvixen_basis,
            equation_halving: super::pealvixen_equation_halving,
            equation_newton: super::pealvixen_equation_newton,
        };
    }

    impl Library for u8 {
        const PER_WORD: usize = 4;
        const CALLS: Calls<u8> = Calls {
            system_halving: super::pealvixen_system_halving_bytes,
            system_newton: super::pealvixen_system_newton_bytes,
            basis: super::pealvixen_basis_bytes,
            equation_halving: super::pealvixen_equation_halving_bytes,
            equation_newton: super::pealvixen_equation_newton_bytes,
        };
    }
}

// In every call below the library reads and writes inside the lengths that it is handed, keeps nothing, and ends:
// that is proved of it. The slices are borrowed for the call, and the written ones are borrowed by nobody else.

/// A system job on A, b, v, y and the work room.
///
/// ```
/// use pealvixen::{lent, Method};
///
/// let (mut y, mut work) = ([9u32; 3], [9; 48]);
/// // b is one word short: refusal 5 at buffer 2, and nothing is written.
/// let answer = lent::system(Method::Halving, 1, 3, 7, &[1, 0, 0], &[0, 0], &[1], &mut y, &mut work);
/// assert_eq!(answer, 5 + (2 << 8));
/// assert_eq!(y, [9; 3]);
/// let answer = lent::system(Method::Halving, 1, 3, 7, &[1, 0, 0], &[0, 0, 0], &[1], &mut y, &mut work);
/// assert_eq!((answer, y, work), (0, [1, 1, 4], [0; 48]));
/// ```
#[allow(clippy::too_many_arguments)]
pub fn system<C: Cell>(
    method: Method,
    r: u64,
    n: u64,
    p: u64,
    a: &[C],
    b: &[C],
    v: &[C],
    y: &mut [C],
    work: &mut [C],
) -> u64 {
    let Calls {
        system_halving,
        system_newton,
        ..
    } = C::CALLS;
    let call = match method {
        Method::Halving => system_halving,
        Method::Newton => system_newton,
    };
    unsafe {
        call(
            r,
            n,
            p,
            a.as_ptr(),
            a.len(),
            b.as_ptr(),
            b.len(),
            v.as_ptr(),
            v.len(),
            y.as_mut_ptr(),
            y.len(),
            work.as_mut_ptr(),
            work.len(),
        )
    }
}

/// A basis job on A, Y0, Y, Z and the work room.
///
/// ```
/// use pealvixen::lent;
///
/// // Y' = Y, Y(0) = 2 modulo 7; Z is the inverse series.
/// let (mut y, mut z, mut work) = ([0u32; 3], [0; 3], [0; 48]);
/// assert_eq!(lent::basis(1, 3, 7, &[1, 0, 0], &[2], &mut y, &mut z, &mut work), 0);
/// assert_eq!((y, z), ([2, 2, 1], [4, 3, 2]));
/// ```
#[allow(clippy::too_many_arguments)]
pub fn basis<C: Cell>(
    r: u64,
    n: u64,
    p: u64,
    a: &[C],
    y0: &[C],
    y: &mut [C],
    z: &mut [C],
    work: &mut [C],
) -> u64 {
    unsafe {
        (C::CALLS.basis)(
            r,
            n,
            p,
            a.as_ptr(),
            a.len(),
            y0.as_ptr(),
            y0.len(),
            y.as_mut_ptr(),
            y.len(),
            z.as_mut_ptr(),
            z.len(),
            work.as_mut_ptr(),
            work.len(),
        )
    }
}

/// An equation job on a_0..a_r, b, start, y and the work room.
///
/// ```
/// use pealvixen::{lent, Method};
///
/// // y''' = 0 with start 0 0 1 modulo 5: the last start value is the second derivative, so y_2 is 1/2 = 3.
/// let a = [0, 0, 0, 0, 0, 0, 0, 0, 0, 1, 0, 0];
/// let (mut y, mut work) = ([0u32; 3], [0; 432]);
/// let answer = lent::equation(Method::Halving, 3, 3, 5, &a, &[0; 3], &[0, 0, 1], &mut y, &mut work);
/// assert_eq!((answer, y), (0, [0, 0, 3]));
/// ```
#[allow(clippy::too_many_arguments)]
pub fn equation<C: Cell>(
    method: Method,
    r: u64,
    n: u64,
    p: u64,
    a: &[C],
    b: &[C],
    start: &[C],
    y: &mut [C],
    work: &mut [C],
) -> u64 {
    let Calls {
        equation_halving,
        equation_newton,
        ..
    } = C::CALLS;
    let call = match method {
        Method::Halving => equation_halving,
        Method::Newton => equation_newton,
    };
    unsafe {
        call(
            r,
            n,
            p,
            a.as_ptr(),
            a.len(),
            b.as_ptr(),
            b.len(),
            start.as_ptr(),
            start.len(),
            y.as_mut_ptr(),
            y.len(),
            work.as_mut_ptr(),
            work.len(),
        )
    }
}

/// Reads a job sheet into three rooms of 2048 words.
///
/// ```
/// use pealvixen::lent;
///
/// let text = b"system\t1\t3\t7\nA\t1\t1\t1\t0\t0\nb\t1\t0\t0\t0\nv\t-6\n";
/// let [mut one, mut two, mut three] = [[0; 2048]; 3];
/// let sheet = lent::read_job(text, &mut one, &mut two, &mut three);
/// assert_eq!((sheet.answer, sheet.kind, sheet.r, sheet.n, sheet.p), (0, 1, 1, 3, 7));
/// assert_eq!((one[0], three[0]), (1, 1));
/// ```
pub fn read_job(text: &[u8], one: &mut [u32], two: &mut [u32], three: &mut [u32]) -> Sheet {
    unsafe {
        pealvixen_read_job(
            text.as_ptr(),
            text.len(),
            one.as_mut_ptr(),
            one.len(),
            two.as_mut_ptr(),
            two.len(),
            three.as_mut_ptr(),
            three.len(),
        )
    }
}

/// Reads a result sheet into two rooms of 2048 words.
///
/// ```
/// use pealvixen::lent;
///
/// let [mut one, mut two] = [[0; 2048]; 2];
/// let sheet = lent::read_result(b"result\tsystem\t1\t3\t7\ny\t1\t1\t1\t-3\n", &mut one, &mut two);
/// assert_eq!((sheet.answer, sheet.kind), (0, 1));
/// assert_eq!(one[..3], [1, 1, 4]);
/// ```
pub fn read_result(text: &[u8], one: &mut [u32], two: &mut [u32]) -> Sheet {
    unsafe {
        pealvixen_read_result(
            text.as_ptr(),
            text.len(),
            one.as_mut_ptr(),
            one.len(),
            two.as_mut_ptr(),
            two.len(),
        )
    }
}

/// Writes the result sheet of a system into 65536 bytes for text.
///
/// ```
/// use pealvixen::lent;
///
/// let mut text = vec![0; 65536];
/// let written = lent::write_system(1, 3, 7, &[1, 1, 4], &mut text);
/// assert_eq!(&text[..written.length as usize], b"result\tsystem\t1\t3\t7\ny\t1\t1\t1\t-3\n");
/// ```
pub fn write_system(r: u64, n: u64, p: u64, y: &[u32], text: &mut [u8]) -> Text {
    unsafe { pealvixen_write_system(r, n, p, y.as_ptr(), y.len(), text.as_mut_ptr(), text.len()) }
}

/// Writes the result sheet of an equation into 65536 bytes for text.
///
/// ```
/// use pealvixen::lent;
///
/// let mut text = vec![0; 65536];
/// let written = lent::write_equation(3, 3, 5, &[0, 0, 3], &mut text);
/// assert_eq!(&text[..written.length as usize], b"result\tequation\t3\t3\t5\ny\t1\t0\t0\t-2\n");
/// ```
pub fn write_equation(r: u64, n: u64, p: u64, y: &[u32], text: &mut [u8]) -> Text {
    unsafe { pealvixen_write_equation(r, n, p, y.as_ptr(), y.len(), text.as_mut_ptr(), text.len()) }
}

/// Writes the result sheet of a basis into 65536 bytes for text.
///
/// ```
/// use pealvixen::lent;
///
/// let mut text = vec![0; 65536];
/// let written = lent::write_basis(1, 2, 7, &[2, 2], &[4, 3], &mut text);
/// assert_eq!(&text[..written.length as usize], b"result\tbasis\t1\t2\t7\nY\t1\t1\t2\t2\nZ\t1\t1\t-3\t3\n");
/// ```
pub fn write_basis(r: u64, n: u64, p: u64, y: &[u32], z: &[u32], text: &mut [u8]) -> Text {
    unsafe {
        pealvixen_write_basis(
            r,
            n,
            p,
            y.as_ptr(),
            y.len(),
            z.as_ptr(),
            z.len(),
            text.as_mut_ptr(),
            text.len(),
        )
    }
}
