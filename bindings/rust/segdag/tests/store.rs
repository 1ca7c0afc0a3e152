//! The crate over the library, by what a program may do with it.
use segdag::{Code, Distance, Id, OpenOptions, Sizes, Stage, Store, OTHERS};
use std::error::Error as _;
use std::path::PathBuf;
use std::sync::{Arc, Mutex};
use std::time::Duration;
use std::{env, fs, process, thread};

/// A path in a folder of this test, at which nothing is.
fn fresh(name: &str) -> PathBuf {
    let folder = env::temp_dir().join(format!("segdag-{}-{name}", process::id()));
    let _ = fs::remove_dir_all(&folder);
    fs::create_dir_all(&folder).expect("a folder");
    folder.join("log")
}

fn id(number: u64) -> Id {
    let mut bytes = [0; 20];
    bytes[12..].copy_from_slice(&number.to_be_bytes());
    Id::from(bytes)
}

fn create(path: &PathBuf) -> Store {
    OpenOptions::new()
        .create(true)
        .open(path)
        .expect("a new log")
}

#[test]
fn a_history_is_stored_and_asked() {
    let path = fresh("history");
    {
        let store = create(&path);
        let session = store.session(0).unwrap();
        assert_eq!(session.add(&id(1), &[]).unwrap(), OTHERS);
        assert_eq!(session.add(&id(2), &[id(1)]).unwrap(), OTHERS + 1);
        assert_eq!(session.add(&id(3), &[id(1)]).unwrap(), OTHERS + 2);
        assert_eq!(
            session.flush(&[id(2)]).unwrap(),
            Sizes {
                master: 2,
                others: 1,
                pending: 0
            }
        );
        session.add(&id(4), &[id(3), id(2)]).unwrap();
    }
    let store = segdag::open(&path).unwrap();
    let session = store.session(7).unwrap();
    assert_eq!(
        session.sizes().unwrap(),
        Sizes {
            master: 2,
            others: 1,
            pending: 0
        }
    );
    assert_eq!(
        (session.number(&id(2)).unwrap(), session.id(1).unwrap()),
        (1, id(2))
    );
    assert!(
        session.is_ancestor(&id(1), &id(3)).unwrap()
            && !session.is_ancestor(&id(2), &id(3)).unwrap()
    );
    assert_eq!(session.merge_bases(&id(2), &id(3)).unwrap(), [id(1)]);
    let distances = session
        .ahead_behind(&[(id(2), id(3)), (id(1), id(3))])
        .unwrap();
    assert_eq!(
        distances,
        [
            Distance {
                ahead: 1,
                behind: 1
            },
            Distance {
                ahead: 0,
                behind: 1
            }
        ]
    );
    assert_eq!(session.ahead_behind(&[]).unwrap(), []);
    assert_eq!(session.count("heads(all)").unwrap(), 2);
    assert_eq!(
        store.line("7 query all").unwrap(),
        format!("{}\n{}\n{}\nok 3\n", id(3), id(2), id(1))
    );
    assert_eq!(
        session.strip(&[id(3)]).unwrap(),
        Sizes {
            master: 2,
            others: 0,
            pending: 0
        }
    );
    assert_eq!(
        (session.reload().unwrap(), session.discard().unwrap()),
        (0, 0)
    );
}

#[test]
fn members_outlive_their_store() {
    let store = create(&fresh("members"));
    let session = store.session(0).unwrap();
    for row in 1..=1000 {
        session
            .add(
                &id(row),
                if row == 1 { vec![] } else { vec![id(row - 1)] }.as_slice(),
            )
            .unwrap();
    }
    let mut members = session.query("all").unwrap();
    session.discard().unwrap();
    drop(store);
    assert_eq!(
        (members.len(), members.next(), members.len()),
        (1000, Some(id(1000)), 999)
    );
    let rest = thread::spawn(move || members.collect::<Vec<_>>())
        .join()
        .unwrap();
    assert_eq!(rest, (1..1000).rev().map(id).collect::<Vec<_>>());
}

#[test]
fn failures_tell_why() {
    let path = fresh("failures");
    let missing = segdag::open(&path).unwrap_err();
    assert_eq!(
        (missing.code(), missing.call()),
        (Code::NotOpened, Some("stat"))
    );
    assert_eq!(
        missing.source().unwrap().to_string(),
        "No such file or directory (os error 2)"
    );
    let store = create(&path);
    assert_eq!(segdag::open(&path).unwrap_err().code(), Code::Locked);
    assert_eq!(store.session(16).unwrap_err().code(), Code::Argument);
    assert_eq!(
        OpenOptions::new().open("a\0b").unwrap_err().code(),
        Code::Argument
    );
    let session = store.session(0).unwrap();
    let unknown = session.add(&id(2), &[id(1)]).unwrap_err();
    assert_eq!(
        (unknown.code(), unknown.id(), unknown.to_string()),
        (Code::Unknown, Some(id(1)), format!("unknown {}", id(1)))
    );
    assert!(
        unknown.code().is_refusal() && !missing.code().is_refusal() && unknown.source().is_none()
    );
    assert_eq!(session.query("heads(").unwrap_err().to_string(), "syntax");
    let page = path.with_file_name("page");
    fs::write(&page, "# A page\n").unwrap();
    assert_eq!(
        OpenOptions::new()
            .create(true)
            .open(&page)
            .unwrap_err()
            .code(),
        Code::Foreign
    );
    assert_eq!(fs::read(&page).unwrap(), b"# A page\n");
    fs::rename(&path, path.with_file_name("moved")).unwrap();
    session.add(&id(1), &[]).unwrap();
    assert_eq!(session.flush(&[id(1)]).unwrap_err().code(), Code::Replaced);
}

#[test]
fn a_store_is_for_any_thread() {
    let path = fresh("threads");
    let store = Arc::new(create(&path));
    let workers: Vec<_> = (0..8)
        .map(|worker| {
            let store = Arc::clone(&store);
            thread::spawn(move || {
                let session = store.session(worker).unwrap();
                for row in 0..100 {
                    let own = id(1 + u64::from(worker) * 100 + row);
                    session.add(&own, &[]).unwrap();
                    assert_eq!(
                        session.query(&own.to_string()).unwrap().collect::<Vec<_>>(),
                        [own]
                    );
                }
                session.flush(&[]).unwrap()
            })
        })
        .collect();
    let most = workers
        .into_iter()
        .map(|it| it.join().unwrap().others)
        .max();
    assert_eq!(most, Some(800));
    let waits = thread::spawn({
        let path = path.clone();
        move || {
            OpenOptions::new()
                .wait(Duration::from_secs(60))
                .open(path)
                .map(|store| store.line("0 count all"))
        }
    });
    thread::spawn(move || drop(store)).join().unwrap();
    assert_eq!(waits.join().unwrap().unwrap().unwrap(), "ok 800\n");
}

#[test]
fn followers_and_mirrors() {
    let path = fresh("followers");
    let store = create(&path);
    let (reader, again) = (segdag::follow(&path).unwrap(), store.follow().unwrap());
    let session = store.session(0).unwrap();
    session.add(&id(1), &[]).unwrap();
    session.flush(&[id(1)]).unwrap();
    for follower in [&reader, &again] {
        assert_eq!(
            (
                follower.refresh().unwrap(),
                follower.session(0).unwrap().reload().unwrap()
            ),
            (1, 0)
        );
        assert_eq!(follower.session(0).unwrap().id(0).unwrap(), id(1));
        assert_eq!(
            follower.session(0).unwrap().flush(&[]).unwrap_err().code(),
            Code::ReadOnly
        );
    }
    let clone = create(&path.with_file_name("clone"));
    assert_eq!(
        clone.session(0).unwrap().clone_mirror().unwrap_err().code(),
        Code::NoRemote
    );
    clone.add_bundle(path.with_file_name("none")).unwrap();
    clone.add_mirror(&path).unwrap();
    assert_eq!(clone.session(0).unwrap().clone_mirror().unwrap().master, 1);
    session.add(&id(2), &[id(1)]).unwrap();
    session.flush(&[id(2)]).unwrap();
    assert_eq!(clone.session(0).unwrap().pull().unwrap().master, 2);
    assert_eq!(
        clone
            .session(0)
            .unwrap()
            .query("all")
            .unwrap()
            .collect::<Vec<_>>(),
        [id(2), id(1)]
    );
}

#[test]
fn a_call_is_cancelled() {
    let path = fresh("cancelled");
    let store = create(&path);
    store.session(0).unwrap().add(&id(1), &[]).unwrap();
    store.session(0).unwrap().flush(&[id(1)]).unwrap();
    let mut waiting = OpenOptions::new();
    waiting
        .wait(Duration::MAX)
        .progress(|told| told.stage == Stage::Lock && told.done > 20);
    let failed = waiting.open(&path).unwrap_err();
    assert_eq!(failed.code(), Code::Cancelled);
    drop(store);
    let panics = OpenOptions::new()
        .progress(|told| panic!("at {} of {}", told.done, told.whole))
        .open(&path)
        .unwrap_err();
    assert_eq!(panics.code(), Code::Cancelled);
    let told = Arc::new(Mutex::new(Vec::new()));
    let store = OpenOptions::new()
        .progress({
            let told = told.clone();
            move |progress| {
                told.lock().unwrap().push(progress.stage);
                progress.stage == Stage::Answer
            }
        })
        .open(&path)
        .unwrap();
    let failed = store
        .session(0)
        .unwrap()
        .ahead_behind(&[(id(1), id(1))])
        .unwrap_err();
    assert_eq!(failed.code(), Code::Cancelled);
    assert_eq!(
        *told.lock().unwrap(),
        [Stage::Read, Stage::Load, Stage::Answer]
    );
}

#[test]
fn ids_are_hex_digits() {
    let text = "00000000000000000000000000000000000000ff";
    let parsed: Id = text.parse().unwrap();
    assert_eq!(
        (parsed, parsed.to_string(), format!("{parsed:?}")),
        (id(255), text.to_string(), format!("Id({text})"))
    );
    assert!([
        "",
        "0",
        "zz",
        &text[1..],
        &format!("{text}0"),
        &"é".repeat(20),
        &"+0".repeat(20)
    ]
    .iter()
    .all(|it| it.parse::<Id>().is_err()));
    assert_eq!(segdag::version(), env!("CARGO_PKG_VERSION"));
}
