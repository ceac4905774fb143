//! Makes the factory card, and reads its ICCID.
use soffitfennel::{Card, Error, ROOM};

fn main() -> Result<(), Error> {
    let mut card = Card::factory()?;
    let mut answer = [0; ROOM];
    card.power_on()?;
    card.transmit(&[0x00, 0xA4, 0x00, 0x0C, 0x02, 0x2F, 0xE2], &mut answer)?;
    for byte in card.transmit(&[0x00, 0xB0, 0x00, 0x00, 0x0A], &mut answer)? {
        print!("{byte:02X}");
    }
    println!();
    Ok(())
}
