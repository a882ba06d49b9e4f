//! The jobs of the example, each on a thread of its own, have the archives and the report of the program.

use ix_export::{selector_from_json, Builder, End, Error, Job, Store};
use std::path::{Path, PathBuf};

fn example(name: &str) -> PathBuf {
    Path::new(env!("CARGO_MANIFEST_DIR")).join("..").join(name)
}

fn library() -> Store {
    let car = std::fs::read(example("library.car")).unwrap();
    Builder::from_car(&car).unwrap().freeze().unwrap()
}

#[test]
fn the_example_has_the_archives_and_the_report_of_the_program() {
    let store = library();
    let list = std::fs::read_to_string(example("library.jobs")).unwrap();
    let lines: Vec<&str> = list.lines().filter(|line| !line.is_empty() && !line.starts_with('#')).collect();
    let reports: Vec<String> = std::thread::scope(|scope| {
        let threads: Vec<_> = lines
            .iter()
            .map(|line| {
                let store = &store;
                scope.spawn(move || {
                    let mut out = store.export(&mut Job::from_line(line).unwrap()).unwrap();
                    let name = line.split(' ').next().unwrap();
                    let wanted = std::fs::read(example("expected").join(format!("{name}.car"))).unwrap();
                    assert!(out.archive() == wanted, "{name}");
                    assert_eq!(out.counts().bytes, wanted.len() as u64);
                    assert_eq!(out.counts().skips, out.skips().len() as u64);
                    assert!(matches!(out.end(), End::Done | End::Limit));
                    let report = String::from_utf8(out.report().to_vec()).unwrap();
                    report.split("total ").next().unwrap().to_string()
                })
            })
            .collect();
        threads.into_iter().map(|thread| thread.join().unwrap()).collect()
    });
    let wanted = std::fs::read_to_string(example("expected/report.txt")).unwrap();
    assert_eq!(reports.concat(), wanted.split("total ").next().unwrap());
}

#[test]
fn what_is_refused_is_told_in_the_programs_words() {
    assert_eq!(Builder::from_car(b"").map(|_| ()).unwrap_err(), Error::Refused("blocks: truncated at 0".into()));
    assert_eq!(Job::from_line("a").map(|_| ()).unwrap_err(), Error::Refused("jobs: fields at line 1".into()));
    assert_eq!(selector_from_json(r#"{".":{}}"#).unwrap(), "a1612ea0");
    let mut store = Builder::new().unwrap();
    assert_eq!(store.add(b"abc", b"abc"), Err(Error::NoCid));
    assert_eq!(Job::new(&[], MATCHER, 1).map(|_| ()).unwrap_err(), Error::Refused("job: no root".into()));
}

// The selector {".":{}} as DAG-CBOR.
const MATCHER: &[u8] = b"\xa1\x61.\xa0";

#[test]
fn a_job_of_parts_has_these_roots() {
    // Two raw blocks under identity CIDs, which need no section.
    let roots: [&[u8]; 2] = [b"\x01\x55\x00\x01a", b"\x01\x55\x00\x01b"];
    let store = Builder::new().unwrap().freeze().unwrap();
    let mut out = store.export(&mut Job::new(&roots, MATCHER, 2).unwrap().once()).unwrap();
    assert_eq!((out.end(), out.counts().visits, out.counts().sections), (End::Done, 2, 0));
}
