//! What a call came to, for the two ways of saying it.

use crate::answer::{Answer, Found};
use crate::command::Command;
use crate::input::shown_input;
use crate::prism::{line_at, Line};
use std::ffi::OsString;
use zolkirta::{File, OwnedRefusal};

pub struct Verdict<'a> {
    pub command: &'a Command,
    /// The bytes of the call's files, in its order.
    pub files: Vec<Vec<u8>>,
    pub answer: Answer,
}

/// Where a refusal lies.
pub struct Place<'a> {
    /// The file's name on the command line.
    pub name: &'a OsString,
    /// Its bytes from there on.
    pub stretch: &'a [u8],
    /// Where it is a text, the line that begins there, if one does.
    pub line: Option<Line<'a>>,
}

impl Verdict<'_> {
    /// Accepted, and where the call asks a question, answered with yes.
    pub fn is_yes(&self) -> bool {
        !matches!(self.answer, Err(_) | Ok(Found::Alike(false)))
    }

    /// What the call is to write where files for it are named.
    pub fn products(&self) -> Vec<&[u8]> {
        match &self.answer {
            Ok(Found::Reduced { merged: model, .. } | Found::Joined { joined: model, .. } | Found::Read { model, .. }) => vec![model],
            Ok(Found::Composed(model) | Found::Hidden { model, .. }) => vec![model],
            Ok(Found::Sheet { sheet, .. }) => vec![sheet.as_bytes()],
            Ok(Found::Rewritten { model, certificate, .. } | Found::Largest { model, certificate }) => vec![model, certificate],
            _ => Vec::new(),
        }
    }

    /// The place of a refusal that has one.
    pub fn place(&self, refusal: &OwnedRefusal) -> Option<Place<'_>> {
        let at = self.command.call.files.iter().position(|role| Some(role.file) == refusal.file)?;
        let (file, byte) = (&self.files[at], refusal.place);
        let stretch = file.get(byte..).unwrap_or_default();
        let line = if refusal.file == Some(File::Text) { line_at(file, byte) } else { None };
        Some(Place { name: &self.command.files[at], stretch, line })
    }

    /// The call's models, each with its name as it is shown.
    pub fn models(&self) -> impl Iterator<Item = (String, &[u8])> {
        let roles = self.command.call.files.iter().enumerate();
        let models = roles.filter(|(_, role)| matches!(role.file, File::Model | File::SecondModel));
        models.map(|(at, _)| (self.shown(at), self.files[at].as_slice()))
    }

    /// The name of a file of the call, as it is shown.
    pub fn shown(&self, file: usize) -> String {
        shown_input(&self.command.files[file])
    }
}
