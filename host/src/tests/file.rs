//! A pool in a file: what was saved is loaded, or nothing is.

use super::*;
use std::cell::{Cell, RefCell};
use std::fs;
use std::path::{Path, PathBuf};

/// A folder of its own, removed at the end.
struct Folder(PathBuf);

impl Folder {
    fn new(name: &str) -> Folder {
        let path = std::env::temp_dir().join(format!("xapool-{name}-{}", std::process::id()));
        fs::create_dir_all(&path).expect("a folder");
        Folder(path)
    }

    fn names(&self) -> Vec<String> {
        let items =
            fs::read_dir(&self.0).expect("a folder").map(|item| item.expect("an item").file_name());
        let mut names: Vec<String> = items.map(|name| name.to_string_lossy().into()).collect();
        names.sort();
        names
    }
}

impl Drop for Folder {
    fn drop(&mut self) {
        let _ = fs::remove_dir_all(&self.0);
    }
}

fn three_nodes() -> Pool<'static> {
    run(3, &[CASE_2, CASE_3, mark(64, 2)]).1
}

fn is_other(loaded: &Result<Pool<'static>, FileError>) -> bool {
    matches!(loaded, Err(FileError::OtherDigest { .. }))
}

#[test]
fn what_was_saved_is_loaded() {
    let folder = Folder::new("saved");
    let path = folder.0.join("p.pool");
    let pool = three_nodes();
    let digest = pool.save(&path).expect("saved");
    assert_eq!(digest, Crc32c::of(&pool.to_bytes()));
    assert_eq!(fs::read(&path).expect("a file"), pool.to_bytes());
    let loaded = Pool::load(&path, Crc32c::from_value(digest.value())).expect("loaded");
    assert_eq!(loaded.words(), pool.words());
    assert_eq!(folder.names(), ["p.pool"]);
    // The next one takes its place; the first digest is no longer that of the file.
    let next = run(4, &[CASE_2]).1;
    let second = next.save(&path).expect("saved");
    assert_eq!(Pool::load(&path, second).expect("loaded").words(), next.words());
    assert!(is_other(&Pool::load(&path, digest)));
    assert_eq!(folder.names(), ["p.pool"]);
}

/// Every bit of a value, a mark, a count: the check alone lets some of them through.
#[test]
fn a_flipped_byte_is_refused() {
    let folder = Folder::new("flipped");
    let path = folder.0.join("p.pool");
    let digest = three_nodes().save(&path).expect("saved");
    let bytes = fs::read(&path).expect("a file");
    let mut well_formed = 0;
    for place in 0..bytes.len() {
        let mut flipped = bytes.clone();
        flipped[place] ^= 1 << (place % 8);
        well_formed += usize::from(Pool::from_bytes(&flipped).is_ok());
        fs::write(&path, &flipped).expect("written");
        assert!(is_other(&Pool::load(&path, digest)), "byte {place}");
    }
    assert!(well_formed > 0);
    let cuts = [0, 8, bytes.len() - 8, bytes.len() - 1];
    for cut in cuts {
        fs::write(&path, &bytes[..cut]).expect("written");
        assert!(is_other(&Pool::load(&path, digest)), "cut at {cut}");
    }
    // The digest of nothing, and a file with nothing in it.
    fs::write(&path, []).expect("written");
    let nothing = Pool::load(&path, Crc32c::new());
    assert!(matches!(nothing, Err(FileError::Refused(Refusal::PoolLength))));
}

/// A file that no pool has, 2^40 bytes long, is told and not read.
#[test]
fn a_file_that_is_too_long_is_refused() {
    let folder = Folder::new("long");
    let path = folder.0.join("p.pool");
    let digest = three_nodes().save(&path).expect("saved");
    fs::File::create(&path).and_then(|file| file.set_len(1 << 40)).expect("a sparse file");
    let loaded = Pool::load(&path, digest);
    assert!(matches!(loaded, Err(FileError::Refused(Refusal::PoolLength))), "{loaded:?}");
    let gone = Pool::load(folder.0.join("gone"), digest).map(|_| ()).expect_err("no file");
    assert!(gone.to_string().contains("gone: No such file"), "{gone}");
}

/// Where it cannot be saved, the old file stands, and nothing is left beside it.
#[test]
fn what_stood_there_stands_if_it_cannot_be_saved() {
    let folder = Folder::new("fails");
    let path = folder.0.join("p.pool");
    let digest = three_nodes().save(&path).expect("saved");
    let mut damaged = three_nodes();
    damaged.words_mut()[3] = 1;
    let refused = damaged.save(&path).expect_err("not well-formed");
    assert!(matches!(refused, FileError::Refused(Refusal::NotWellFormed)));
    assert!(Pool::load(&path, digest).is_ok());
    // A folder with something in it has the name.
    let taken = folder.0.join("taken");
    fs::create_dir_all(taken.join("inside")).expect("a folder");
    let failed = three_nodes().save(&taken).expect_err("a folder has the name");
    assert!(matches!(failed, FileError::Io { .. }), "{failed}");
    for nowhere in [folder.0.join("none/p.pool"), folder.0.join(".."), PathBuf::new()] {
        let failed = three_nodes().save(&nowhere).expect_err("nowhere");
        assert!(matches!(failed, FileError::Io { .. }), "{failed}");
    }
    assert_eq!(folder.names(), ["p.pool", "taken"]);
}

/// What a flush saw: whether it was of a folder, the bytes of a file, and what stood under the name.
type Seen = (bool, u64, Vec<u8>);

thread_local! {
    static SEEN: RefCell<Vec<Seen>> = const { RefCell::new(Vec::new()) };
    static SAVED: RefCell<PathBuf> = RefCell::default();
    /// The flush of this number fails.
    static FAILS: Cell<usize> = const { Cell::new(usize::MAX) };
}

fn flush_and_look(file: &fs::File) -> std::io::Result<()> {
    let data = file.metadata()?;
    let stands = SAVED.with_borrow(|path| fs::read(path).unwrap_or_default());
    let bytes = if data.is_dir() { 0 } else { data.len() };
    SEEN.with_borrow_mut(|seen| seen.push((data.is_dir(), bytes, stands)));
    let fails = SEEN.with_borrow(|seen| seen.len() > FAILS.get());
    if fails {
        Err(std::io::Error::other("no flush"))
    } else {
        file.sync_all()
    }
}

/// The whole file is flushed while the old one has the name, and the folder when the new one has it; also
/// where nothing changed. A flush that fails is told.
#[test]
fn the_file_is_flushed_before_it_has_the_name_and_the_folder_after() {
    let folder = Folder::new("flushed");
    let path = folder.0.join("p.pool");
    let (old, new) = (three_nodes(), run(4, &[CASE_2]).1);
    let (before, after) = (old.to_bytes(), new.to_bytes());
    SAVED.set(path.clone());
    let save = |pool: &Pool, fails: usize| {
        FAILS.set(fails);
        SEEN.take();
        let saved = pool.save_with(&path, flush_and_look);
        (saved, SEEN.take())
    };
    let length = |bytes: &[u8]| bytes.len() as u64;
    for pool in [&old, &old] {
        let stood = fs::read(&path).unwrap_or_default();
        let (saved, seen) = save(pool, usize::MAX);
        assert_eq!(seen, [(false, length(&before), stood), (true, 0, before.clone())]);
        assert!(saved.is_ok());
    }
    let (saved, seen) = save(&new, 0);
    assert!(matches!(saved, Err(FileError::Io { .. })));
    assert_eq!(seen, [(false, length(&after), before.clone())]);
    assert_eq!((fs::read(&path).expect("a file"), folder.names()), (before, vec!["p.pool".into()]));
    let (saved, seen) = save(&new, 1);
    let failed = saved.expect_err("the folder is not flushed");
    assert!(matches!(failed, FileError::NotFlushed { .. }));
    assert!(
        failed.to_string().ends_with("it is replaced, but a power cut may undo that"),
        "{failed}"
    );
    assert_eq!((seen.len(), fs::read(&path).expect("a file")), (2, after));
}

#[cfg(unix)]
#[test]
fn a_link_leads_to_the_file_and_its_permissions_stay() {
    use std::os::unix::fs::{symlink, PermissionsExt};
    let folder = Folder::new("link");
    let (path, link) = (folder.0.join("p.pool"), folder.0.join("link"));
    let mode = |path: &Path| fs::metadata(path).expect("a file").permissions().mode() & 0o777;
    assert!(three_nodes().save(&path).is_ok());
    fs::set_permissions(&path, fs::Permissions::from_mode(0o640)).expect("a mode");
    symlink(&path, &link).expect("a link");
    let next = run(4, &[CASE_2]).1;
    let digest = next.save(&link).expect("saved");
    assert!(fs::symlink_metadata(&link).expect("a link").is_symlink());
    assert_eq!(Pool::load(&path, digest).expect("loaded").words(), next.words());
    assert_eq!(mode(&path), 0o640);
}
