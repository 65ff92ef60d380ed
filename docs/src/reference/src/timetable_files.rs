//! Site files for the timetable program's tests.

use crate::diagnosis;
use crate::files::{longest, site_a, site_with_rows};
use crate::site::{bytes, Site};
use crate::timetable;
use std::io::Result;

/// The paper's entries.
pub fn paper() -> Site {
    Site { entries: vec![[2, 330, 2, 600, 0], [2, 330, 2, 720, 0], [130, 1170, 0, 0, 0]], ..site_a() }
}

/// Sixteen entries on every day, their three starts by turns.
fn equal_starts() -> Site {
    Site { entries: (0..16).map(|i| [255, [600, 0, 1439][i % 3], 2, 150 + i as u16, 0]).collect(), ..site_a() }
}

/// What stands under a name in the test program's folder.
enum Stored {
    Nothing,
    Folder,
    File(Vec<u8>),
}

/// The names in the order in which the test program takes them.
fn stored() -> Vec<(&'static str, Stored)> {
    let file = |site: Site| Stored::File(bytes(&site));
    let mut oversized = bytes(&longest());
    oversized.resize(10_000, 7);
    let mut green_101 = bytes(&site_with_rows());
    green_101[9] = 101;
    vec![
        ("absent.bin", Stored::Nothing),
        ("folder.bin", Stored::Folder),
        ("empty_lists.bin", file(site_a())),
        ("rows.bin", file(site_with_rows())),
        ("equal_starts.bin", file(equal_starts())),
        ("longest.bin", file(longest())),
        ("oversized.bin", Stored::File(oversized)),
        ("zeros.bin", Stored::File(vec![0; 10_000])),
        ("minimum_green.bin", Stored::File(green_101)),
    ]
}

/// Writes the test program's folder.
pub fn write(folder: &str) -> Result<()> {
    for (name, stored) in stored() {
        let path = format!("{folder}/{name}");
        match stored {
            Stored::Nothing => {}
            // git keeps no empty folder
            Stored::Folder => {
                std::fs::create_dir(&path)?;
                std::fs::write(format!("{path}/README"), "A folder in a site file's place: it opens and cannot be read.\n")?;
            }
            Stored::File(file) => std::fs::write(path, file)?,
        }
    }
    Ok(())
}

/// What the test program prints: nothing of a folder, and an absent file counts as empty. Behind a refusal stands what explains it.
pub fn answers() -> String {
    let printed = |name, file: &[u8]| timetable::print(file) + &diagnosis::of(file, name);
    let of = |name, stored| match stored {
        Stored::Nothing => printed(name, &[]),
        Stored::Folder => String::new(),
        Stored::File(file) => printed(name, &file),
    };
    stored().into_iter().map(|(name, stored)| format!("-- {name}\n{}", of(name, stored))).collect()
}
