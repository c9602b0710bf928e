fn main() -> Result<(), oer::Error> {
    let types = oer::Types::parse("Id ::= OCTET STRING")?;
    let made = types.canon("Id", &[0x81, 0x02, 0x61, 0x62])?;
    println!("read {} octets, wrote {}", made.read, made.octets.len());
    if let Err(rejected) = types.check("Id", &[0x03, 0x61]) {
        println!("{rejected}");
    }
    Ok(())
}
