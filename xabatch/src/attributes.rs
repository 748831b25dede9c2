//! Extended attributes, with the access control list among them: who puts a new file in the place of
//! an old one keeps them.

use crate::system;
use std::ffi::CStr;
use std::fs::File;
use std::io;

/// The access control list. A new file may have one that its folder hands down.
const ACCESS: &CStr = c"system.posix_acl_access";
/// Made by the kernel from the bytes of the file that has them: those of the old file would be wrong.
const OF_CONTENTS: [&CStr; 2] = [c"security.ima", c"security.evm"];

/// Gives the new file the attributes of the old one, and no other access control list.
pub fn keep(old: &File, new: &File) -> io::Result<()> {
    let names = system::attribute_names(old)?;
    for name in names.iter().filter(|name| !OF_CONTENTS.contains(&name.as_c_str())) {
        keep_one(old, new, name).map_err(|error| cannot_be_kept(name, &error))?;
    }
    let is_new = names.iter().all(|name| name.as_c_str() != ACCESS);
    if is_new && system::attribute(new, ACCESS)?.is_some() {
        system::remove_attribute(new, ACCESS)?;
    }
    Ok(())
}

/// One that is there already, as a label that the system gives to each file, is not set.
fn keep_one(old: &File, new: &File, name: &CStr) -> io::Result<()> {
    match system::attribute(old, name)? {
        Some(value) if system::attribute(new, name)?.as_ref() != Some(&value) => {
            system::set_attribute(new, name, &value)
        }
        _ => Ok(()),
    }
}

fn cannot_be_kept(name: &CStr, error: &io::Error) -> io::Error {
    let name = name.to_string_lossy();
    io::Error::new(error.kind(), format!("its attribute {name} cannot be kept: {error}"))
}
