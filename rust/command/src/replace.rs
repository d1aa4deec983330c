//! Files that are written: each as a whole, by a new file beside it that takes its place.
//!
//! A command finds its places, then writes the new files, then prints, and only then do they take their places: where anything fails, what stood
//! there stands there, and what is new is removed.
mod new;
mod place;

pub use place::Place;

use crate::out::Out;
use crate::problem::Problem;
use new::New;

/// Writes these files and prints this text. Once all of it is printed the files take their places.
pub fn once_printed<B: AsRef<[u8]>>(
    files: impl IntoIterator<Item = (Place, B)>,
    text: impl AsRef<[u8]>,
    out: &mut Out,
) -> Result<(), Problem> {
    let (places, contents): (Vec<Place>, Vec<B>) = files.into_iter().unzip();
    let new = written(places, contents).map_err(Problem::Stopped)?;
    out.print_bytes(text.as_ref())?;
    out.flush()?;
    take_places(new).map_err(Problem::Stopped)
}

/// Writes what is printed otherwise to a file, if there is a place for it.
pub fn write_or_print(place: Option<Place>, bytes: &[u8], out: &mut Out) -> Result<(), Problem> {
    match place {
        Some(place) => once_printed([(place, bytes)], "", out),
        None => out.print_bytes(bytes),
    }
}

/// The new files, each with its bytes. Of two in one place the second would take the first one's place.
fn written<B: AsRef<[u8]>>(places: Vec<Place>, contents: Vec<B>) -> Result<Vec<New>, String> {
    for (k, place) in places.iter().enumerate() {
        if let Some(same) = places[..k].iter().find(|before| before.is(place)) {
            return Err(format!("{} and {} are one file, and two are to be written", same.shown, place.shown));
        }
    }
    places.into_iter().zip(contents).map(|(place, bytes)| New::write(place, bytes.as_ref())).collect()
}

/// All take their places, one after the other. Where one fails, those before it can't be called back, and it is said that they are written.
fn take_places(all: Vec<New>) -> Result<(), String> {
    let mut before = String::new();
    for new in all {
        let shown = new.place.shown.clone();
        new.take_place().map_err(|says| says + &before)?;
        before += &format!("; {shown} is written");
    }
    Ok(())
}
