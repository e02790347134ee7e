//! The answer list in columns: what the wrapper's parts are of it, and that a load of a depth is the one that the depth has alone. That a
//! page, in rows, has the same numbers is in `load_page.rs`.

mod common;

use common::{root, text_with, FLAT, HEAVIEST};
use silo::description::Description;
use silo::library::{self, Loads, BOTTOM, P_HE, P_HF, P_P, P_VF, P_W, P_WE, P_WF, ROW, Z};
use silo::text;

type Changes = &'static [(&'static str, &'static str)];

const SILOS: [Changes; 5] = [
    &[("strakes", "5 x 1990 mm"), ("depths", "every 50 mm")],
    &[FLAT[0], FLAT[1], FLAT[2], ("headroom", "700 mm"), ("depths", "every 500 mm")],
    &[("depths", "strake edges"), ("outlet eccentricity", "300 mm")],
    &[("depths", "5 m")],
    &HEAVIEST,
];

fn described(changes: Changes) -> Description {
    text::read(&text_with(changes)).expect("a text").description
}

fn loads(silo: &Description) -> Loads {
    Loads::of(&silo.to_bytes(), silo.strakes.len()).expect("an accepted silo")
}

/// Each column has a number for each depth, one column behind another; then come the bottom and the strakes.
#[test]
fn the_parts_are_the_list() {
    for changes in SILOS {
        let silo = described(changes);
        let sheet = silo.to_bytes();
        let mut answers = vec![0; library::answers_length(&sheet).expect("an accepted silo")];
        library::fill_loads(&sheet, &mut answers).expect("loads");
        let loads = loads(&silo);
        let (columns, rest) = answers.split_at(ROW * silo.depths.len());
        for (load, column) in columns.chunks_exact(silo.depths.len()).enumerate() {
            assert_eq!(loads.column(load), column, "{load}: {silo:?}");
        }
        let (bottom, strakes) = rest.split_at(BOTTOM);
        assert_eq!(loads.floor(), bottom[0]);
        let hopper: Vec<_> = (0..5).map(|k| (k, bottom[k], bottom[5 + k])).collect();
        assert_eq!(loads.hopper().collect::<Vec<_>>(), hopper);
        assert_eq!(loads.strakes(), strakes);
        assert_eq!(strakes.len(), silo.strakes.len());
    }
}

#[test]
fn rows_are_made_of_the_columns() {
    for changes in SILOS {
        let silo = described(changes);
        let loads = loads(&silo);
        assert_eq!(loads.column(Z), silo.depths);
        assert_eq!(loads.rows().count(), silo.depths.len());
        for (depth, row) in loads.rows().enumerate() {
            assert_eq!(row, std::array::from_fn(|load| loads.column(load)[depth]), "{silo:?}");
        }
    }
}

/// A list of one depth is the same in columns and in rows, so this is the number that rows had.
#[test]
fn a_depth_has_the_loads_that_it_has_alone() {
    for changes in SILOS {
        let silo = described(changes);
        for (row, depth) in loads(&silo).rows().zip(&silo.depths) {
            let alone = loads(&Description { depths: vec![*depth], ..silo.clone() });
            assert_eq!(alone.rows().collect::<Vec<_>>(), [row], "{depth}: {silo:?}");
        }
    }
}

/// The header's columns have the numbers that they have here, and its version is that of the declarations in silo-sys.
#[test]
fn the_header_is_the_one_that_is_wrapped() {
    let read = |file: &str| std::fs::read_to_string(root().join(file)).expect(file);
    let (header, manifest) = (read("include/silo.h"), read("silo-sys/Cargo.toml"));
    let between = |from: &str, to: &str| {
        let after = header.split_once(from).expect(from).1;
        after.split_once(to).expect(to).0.trim().to_string()
    };
    let [major, minor] =
        ["MAJOR", "MINOR"].map(|number| between(&format!("#define SILO_VERSION_{number} "), "\n"));
    assert!(manifest.contains(&format!("\nversion = \"{major}.{minor}.")), "{major}.{minor}");
    let names: Vec<String> = between("enum silo_column {", "}")
        .split(',')
        .map(|name| name.trim().replacen("SILO_", "", 1))
        .collect();
    assert_eq!(names, ["Z", "P_HF", "P_WF", "P_VF", "P_W", "P_HE", "P_WE", "P_P"]);
    assert_eq!([Z, P_HF, P_WF, P_VF, P_W, P_HE, P_WE, P_P], [0, 1, 2, 3, 4, 5, 6, 7]);
}
