//! The sheets of examples/: the second program prints the result sheets that stand beside them, and so does the
//! library.

use pealvixen::{
    read_job, write_basis, write_equation, write_system, Desk, Job, Method, Refusal, Room,
};
use reference::sheets::solve_sheet;
use std::fs;
use std::path::Path;

/// What the library makes of a sheet: halving, and Newton for a basis.
fn solved(text: &[u8]) -> Result<String, Refusal> {
    let (mut desk, mut other, mut room) = (Desk::new(), Desk::new(), Room::new());
    let sheet = match read_job(text, &mut desk)? {
        Job::System(job) => {
            let y = job.solve(Method::Halving, &mut room)?;
            write_system(job.r, job.n, job.p, y.cells(), &mut other)?
        }
        Job::Basis(job) => {
            let found = job.solve(&mut room)?;
            write_basis(
                job.r,
                job.n,
                job.p,
                found.y.cells(),
                found.z.cells(),
                &mut other,
            )?
        }
        Job::Equation(job) => {
            let y = job.solve(Method::Halving, &mut room)?;
            write_equation(job.r, job.n, job.p, y, &mut other)?
        }
    };
    Ok(sheet.to_string())
}

#[test]
fn sheets_and_their_results() {
    let folder = Path::new(env!("CARGO_MANIFEST_DIR")).join("../../examples");
    for name in ["servo-drive", "film-transport", "lens-focus"] {
        let sheet = fs::read(folder.join(format!("{name}.sheet"))).unwrap();
        let result = fs::read_to_string(folder.join(format!("{name}.result"))).unwrap();
        assert_eq!(solve_sheet(&sheet), result.as_bytes(), "{name}");
        assert_eq!(solved(&sheet), Ok(result), "{name}");
    }
}
