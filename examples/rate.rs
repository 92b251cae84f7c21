// Keeps two cables in a book by the proved library and reads their ratings back.
#[path = "../crates/sheafdawn/rust/sheafdawn.rs"]
mod sheafdawn;

const CABLE: sheafdawn::Case = [
    1, 2, 5000, 9000, 2000, 1150000, 480, 1920, 600, 1280, 6000, 250, 400, 1470, 3, 1077562, 8000,
    0, 0, 0, 0, 0, 596281, 0, 185062, 3212858, 0, 0, 0, 0,
];

fn main() -> Result<(), sheafdawn::Refused> {
    let mut hotter = CABLE;
    hotter[sheafdawn::field::AMBIENT_TEMPERATURE] = 3000; // the ground at 30 degrees C
    let mut buffer = [0; 1024];
    let mut used = sheafdawn::start(&mut buffer, 0)?;
    for case in [CABLE, hotter] {
        used = sheafdawn::append(&mut buffer, used, &case)?;
    }
    let accepted = sheafdawn::accept(&buffer, used)?;
    for index in 0..accepted.count {
        let record = sheafdawn::read(&buffer, used, index)?;
        println!(
            "answer {}, {} mA",
            record[sheafdawn::record::ANSWER],
            record[sheafdawn::record::RATING]
        );
    }
    Ok(())
}
