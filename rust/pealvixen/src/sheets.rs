//! Sheets: jobs and results as text.

use crate::jobs::{Basis, Equation, Matrix, System, Vector};
use crate::lent;
use crate::Refusal;

/// The words of a room for a sheet's numbers.
const ROOM: usize = 2048;
/// The bytes for text.
const TEXT: usize = 65536;

/// Memory for the numbers of one sheet and the text of one sheet. What is read from a sheet, and the text that is
/// written, borrow it; a desk serves any number of sheets, one after the other.
#[derive(Clone, Debug)]
pub struct Desk {
    rooms: [Vec<u32>; 3],
    text: Vec<u8>,
}

impl Desk {
    pub fn new() -> Desk {
        Desk {
            rooms: [vec![0; ROOM], vec![0; ROOM], vec![0; ROOM]],
            text: vec![0; TEXT],
        }
    }
}

impl Default for Desk {
    fn default() -> Desk {
        Desk::new()
    }
}

/// A job as a sheet has it, ready to be solved.
#[derive(Clone, Copy, Debug)]
pub enum Job<'d> {
    System(System<'d>),
    Basis(Basis<'d>),
    Equation(Equation<'d>),
}

/// A result as a sheet has it, with the order, the number of terms and the modulus of its job.
#[derive(Clone, Copy, Debug, PartialEq, Eq)]
pub enum Solved<'d> {
    System {
        r: u64,
        n: u64,
        p: u64,
        y: Vector<'d>,
    },
    Basis {
        r: u64,
        n: u64,
        p: u64,
        y: Matrix<'d>,
        z: Matrix<'d>,
    },
    Equation {
        r: u64,
        n: u64,
        p: u64,
        y: &'d [u32],
    },
}

/// Reads a job sheet.
///
/// ```
/// use pealvixen::{read_job, write_system, Desk, Job, Method, Refusal, Room};
///
/// let text = b"system\t1\t3\t7\nA\t1\t1\t1\t0\t0\nb\t1\t0\t0\t0\nv\t-6\n";
/// let mut desk = Desk::new();
/// let job = match read_job(text, &mut desk)? {
///     Job::System(job) => job,
///     _ => unreachable!("the sheet says system"),
/// };
/// let mut room = Room::new();
/// let y = job.solve(Method::Halving, &mut room)?;
/// let sheet = write_system(1, 3, 7, y.cells(), &mut desk)?;
/// assert_eq!(sheet, "result\tsystem\t1\t3\t7\ny\t1\t1\t1\t-3\n");
///
/// // The b line is missing, so line 3 is not what it should be.
/// let refusal = read_job(b"system\t1\t1\t7\nA\t1\t1\t1\nv\t1\n", &mut desk).unwrap_err();
/// assert_eq!(refusal, Refusal::Line { line: 3 });
/// # Ok::<(), Refusal>(())
/// ```
pub fn read_job<'d>(text: &[u8], desk: &'d mut Desk) -> Result<Job<'d>, Refusal> {
    let [one, two, three] = &mut desk.rooms;
    let sheet = lent::read_job(text, one, two, three);
    lent::unpack(sheet.answer)?;
    let (r, n, p) = (sheet.r, sheet.n, sheet.p);
    let (order, terms) = (r as usize, n as usize);
    Ok(match sheet.kind {
        1 => Job::System(System {
            r,
            n,
            p,
            a: &one[..order * order * terms],
            b: &two[..order * terms],
            v: &three[..order],
        }),
        2 => Job::Basis(Basis {
            r,
            n,
            p,
            a: &one[..order * order * terms],
            y0: &two[..order * order],
        }),
        _ => Job::Equation(Equation {
            r,
            n,
            p,
            a: &one[..(order + 1) * terms],
            b: &two[..terms],
            start: &three[..order],
        }),
    })
}

/// Reads a result sheet: exactly the sheets that the writers write.
///
/// ```
/// use pealvixen::{read_result, Desk, Solved};
///
/// let mut desk = Desk::new();
/// match read_result(b"result\tequation\t1\t2\t7\ny\t1\t3\t-3\n", &mut desk)? {
///     Solved::Equation { p, y, .. } => assert_eq!((p, y), (7, &[3, 4][..])),
///     _ => unreachable!("the sheet says equation"),
/// }
/// # Ok::<(), pealvixen::Refusal>(())
/// ```
pub fn read_result<'d>(text: &[u8], desk: &'d mut Desk) -> Result<Solved<'d>, Refusal> {
    let [one, two, _] = &mut desk.rooms;
    let sheet = lent::read_result(text, one, two);
    lent::unpack(sheet.answer)?;
    let (r, n, p) = (sheet.r, sheet.n, sheet.p);
    let (order, terms) = (r as usize, n as usize);
    Ok(match sheet.kind {
        1 => Solved::System {
            r,
            n,
            p,
            y: Vector::new(&one[..order * terms], n),
        },
        2 => Solved::Basis {
            r,
            n,
            p,
            y: Matrix::new(&one[..order * order * terms], r, n),
            z: Matrix::new(&two[..order * order * terms], r, n),
        },
        _ => Solved::Equation {
            r,
            n,
            p,
            y: &one[..terms],
        },
    })
}

/// Writes the result sheet of a system; y has r*N words.
///
/// ```
/// let mut desk = pealvixen::Desk::new();
/// let sheet = pealvixen::write_system(1, 3, 7, &[1, 1, 4], &mut desk)?;
/// assert_eq!(sheet, "result\tsystem\t1\t3\t7\ny\t1\t1\t1\t-3\n");
/// # Ok::<(), pealvixen::Refusal>(())
/// ```
pub fn write_system<'d>(
    r: u64,
    n: u64,
    p: u64,
    y: &[u32],
    desk: &'d mut Desk,
) -> Result<&'d str, Refusal> {
    let written = lent::write_system(r, n, p, y, &mut desk.text);
    written_text(written, desk)
}

/// Writes the result sheet of an equation; y has N words.
///
/// ```
/// let mut desk = pealvixen::Desk::new();
/// let sheet = pealvixen::write_equation(3, 3, 5, &[0, 0, 3], &mut desk)?;
/// assert_eq!(sheet, "result\tequation\t3\t3\t5\ny\t1\t0\t0\t-2\n");
/// # Ok::<(), pealvixen::Refusal>(())
/// ```
pub fn write_equation<'d>(
    r: u64,
    n: u64,
    p: u64,
    y: &[u32],
    desk: &'d mut Desk,
) -> Result<&'d str, Refusal> {
    let written = lent::write_equation(r, n, p, y, &mut desk.text);
    written_text(written, desk)
}

/// Writes the result sheet of a basis; Y and Z have r*r*N words each.
///
/// ```
/// let mut desk = pealvixen::Desk::new();
/// let sheet = pealvixen::write_basis(1, 2, 7, &[2, 2], &[4, 3], &mut desk)?;
/// assert_eq!(sheet, "result\tbasis\t1\t2\t7\nY\t1\t1\t2\t2\nZ\t1\t1\t-3\t3\n");
/// # Ok::<(), pealvixen::Refusal>(())
/// ```
pub fn write_basis<'d>(
    r: u64,
    n: u64,
    p: u64,
    y: &[u32],
    z: &[u32],
    desk: &'d mut Desk,
) -> Result<&'d str, Refusal> {
    let written = lent::write_basis(r, n, p, y, z, &mut desk.text);
    written_text(written, desk)
}

/// The text that stands on the desk after a writer's answer.
fn written_text(written: lent::Text, desk: &Desk) -> Result<&str, Refusal> {
    lent::unpack(written.answer)?;
    let text = &desk.text[..written.length as usize];
    Ok(std::str::from_utf8(text).expect("a sheet is digits, letters, signs, tabs and line feeds"))
}
