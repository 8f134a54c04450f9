//! Comparison of a reel with a list of hashes.
use crate::failure::Failure;
use crate::files::{self, Output};
use crate::framemd5;
use crate::progress::Progress;
use crate::reel::{each_picture, Form, Reel};
use mpeg1::Picture;
use std::path::Path;

// A list: its comments, and the fields of each picture's line.
struct List {
    comments: Vec<(String, String)>,
    pictures: Vec<Vec<String>>,
}

const FIELDS: usize = 6;

impl List {
    fn of(text: &str) -> Result<List, String> {
        let mut list = List { comments: Vec::new(), pictures: Vec::new() };
        for (n, line) in text.lines().enumerate().filter(|(_, line)| !line.trim().is_empty()) {
            if let Some((name, value)) = line.split_once(": ").filter(|_| line.starts_with('#')) {
                list.comments.push((name.to_string(), value.trim().to_string()));
            } else if !line.starts_with('#') {
                let fields = fields(line);
                if fields.len() != FIELDS || fields.last().map_or(true, |hash| hash.len() != 32) {
                    return Err(format!("line {} is not that of a picture in a list that `mpeg1 frames` or ffmpeg -f framemd5 has made", n + 1));
                }
                list.pictures.push(fields);
            }
        }
        Ok(list)
    }

    // The first comment that says something else than the reel does.
    fn other_comment(&self, form: &Form) -> Option<String> {
        framemd5::comments(form).into_iter().find_map(|(name, value)| {
            let (_, listed) = self.comments.iter().find(|(listed, listed_value)| listed == name && *listed_value != value)?;
            Some(format!("the list says `{name}: {listed}`, the reel `{name}: {value}`"))
        })
    }
}

fn fields(line: &str) -> Vec<String> {
    line.split(',').map(|field| field.trim().to_lowercase()).collect()
}

fn type_name(number: u32) -> String {
    match number {
        1 => "I".to_string(),
        2 => "P".to_string(),
        3 => "B".to_string(),
        _ => number.to_string(),
    }
}

fn first_difference(number: usize, picture: &Picture, ours: &str, listed: Option<&Vec<String>>) -> String {
    let (time, kind) = (picture.time(), type_name(picture.type_last_read()));
    let said = match listed {
        Some(listed) => format!("the list has `{}`, the reel `{}`", listed.join(", "), fields(ours).join(", ")),
        None => "the list ends before it".to_string(),
    };
    format!("the first that does not agree is picture {number}, time {time:.3} s, type last read {kind}: {said}")
}

pub fn run(file: &Path, list: &Path) -> Result<(), Failure> {
    if files::is_standard(file) && files::is_standard(list) {
        return Err(Failure::Usage("FILE and LIST cannot both be standard input".to_string()));
    }
    let text = files::read(list, usize::MAX)?;
    let listed = List::of(&String::from_utf8_lossy(&text)).map_err(|error| Failure::reading(list, error))?;
    let reel = Reel::read(file)?;
    let mut decoder = reel.open()?;
    let mut output = Output::standard()?;
    let progress = Progress::new(false, &reel.stream);
    let other = listed.other_comment(&Form::of(&decoder));
    let (mut agree, mut first) = (0, None);
    let ended = each_picture(&mut decoder, progress, |number, picture| {
        let (ours, theirs) = (framemd5::line(number, picture), listed.pictures.get(number - 1));
        if theirs == Some(&fields(&ours)) {
            agree += 1;
        } else if first.is_none() {
            first = Some(first_difference(number, picture, &ours, theirs));
        }
        Ok(())
    })?;
    let all = ended.pictures.max(listed.pictures.len());
    let missing = listed.pictures.len().saturating_sub(ended.pictures);
    output.print(&format!("{agree} of {all} pictures agree\n"))?;
    if first.is_none() && missing > 0 {
        first = Some(format!("the first that does not agree is picture {}: the reel ends before it", ended.pictures + 1));
    }
    for said in other.iter().chain(&first) {
        output.print(&format!("{said}\n"))?;
    }
    output.finish()?;
    reel.result(ended)?;
    if other.is_some() || first.is_some() {
        Err(Failure::Differs)
    } else {
        Ok(())
    }
}
