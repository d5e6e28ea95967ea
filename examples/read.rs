//! Reads a payload with alpha: where do the main data and the alpha data lie?
//! In host/: cargo run --release --package bustardcase --example read

fn main() -> Result<(), bustardcase::Refusal> {
    let payload = [4, 0, 0, 0, 0, 0, 0, 0, 0x10, 0xBB, 0xAA];
    let image = bustardcase::read(&payload)?;
    let (main, alpha) = (image.main_data, image.alpha_data);
    println!("{} by {}", image.width, image.height);
    println!("main data at {}: {:X}", main.at, main.of(&payload)[0]);
    println!("alpha data at {}: {:X}", alpha.at, alpha.of(&payload)[0]);
    let refusal = bustardcase::read(&payload[..10]).unwrap_err();
    let (number, bit) = (refusal.number(), refusal.bit().unwrap_or(0));
    println!("one byte less: refusal {number} at bit {bit}");
    Ok(())
}
