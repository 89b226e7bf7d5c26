use card::{Card, Kind, Rule, State};

fn main() -> Result<(), Box<dyn std::error::Error>> {
    let mut card = Card::make(8, Kind::default(), 448, Rule::OPEN)?;
    let select_root = [0x00, 0xA4, 0x00, 0x04, 0x02, 0x3F, 0x00, 0x00];
    let reply = card.command(&select_root, &State::default())?;
    println!("{}: {}, {} bytes of data", reply.word, reply.word.meaning(), reply.data.len());
    Ok(())
}
