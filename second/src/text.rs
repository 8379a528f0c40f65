//! Order files made from text: a line for each record, as in examples/.

type Words<'a> = std::str::SplitWhitespace<'a>;

fn number(word: Option<&str>) -> Result<u32, String> {
    let word = word.ok_or("a number is missing")?;
    word.replace(',', "")
        .parse()
        .map_err(|_| format!("'{word}' is no number"))
}

fn with_number(letter: u8, n: u32) -> Vec<u8> {
    let mut record = vec![0; 32];
    record[0] = letter;
    record[4..8].copy_from_slice(&n.to_be_bytes());
    record
}

/// SIDE QUANTITY at PRICE|market [fill-or-kill|immediate-or-cancel] [minimum N] investor|dealer ACCOUNT
fn entry(side: u8, words: &mut Words) -> Result<Vec<u8>, String> {
    let mut record = vec![0; 32];
    record[..4].copy_from_slice(&[b'E', side, b'L', b'N']);
    record[8..12].copy_from_slice(&number(words.next())?.to_be_bytes());
    if words.next() != Some("at") {
        return Err("'at' is missing".to_string());
    }
    match words.next() {
        Some("market") => record[2] = b'M',
        word => record[4..8].copy_from_slice(&number(word)?.to_be_bytes()),
    }
    loop {
        match words.next() {
            Some("fill-or-kill") => record[3] = b'F',
            Some("immediate-or-cancel") => record[3] = b'I',
            Some("minimum") => record[16..20].copy_from_slice(&number(words.next())?.to_be_bytes()),
            Some("investor") => break record[20] = b'I',
            Some("dealer") => break record[20] = b'D',
            word => return Err(format!("{word:?} is no part of an entry")),
        }
    }
    let account = words.next().unwrap_or_default();
    if account.len() != 8 {
        return Err(format!("the account '{account}' has not eight bytes"));
    }
    record[24..32].copy_from_slice(account.as_bytes());
    Ok(record)
}

fn record(line: &str) -> Result<Vec<u8>, String> {
    let mut words = line.split_whitespace();
    let bytes = match words.next() {
        None => Vec::new(),
        Some("start") => with_number(b'D', number(words.next())?),
        Some("buy") => entry(b'B', &mut words)?,
        Some("sell") => entry(b'S', &mut words)?,
        Some("withdraw") => with_number(b'W', number(words.next())?),
        Some("open") => with_number(b'O', 0),
        Some("halt") => with_number(b'H', 0),
        Some("resume") => with_number(b'R', 0),
        Some("close") => with_number(b'C', 0),
        Some("text") => words.next().unwrap_or_default().as_bytes().to_vec(),
        Some(word) => return Err(format!("'{word}' is no record")),
    };
    match words.next() {
        None => Ok(bytes),
        Some(word) => Err(format!("'{word}' is too much")),
    }
}

/// The order file that a text says. What follows a `#` is left out.
pub fn orders(text: &str) -> Result<Vec<u8>, String> {
    let mut file = Vec::new();
    for (index, line) in text.lines().enumerate() {
        let bytes = record(line.split('#').next().unwrap_or_default())
            .map_err(|why| format!("line {}: {why}", index + 1))?;
        file.extend(bytes);
    }
    Ok(file)
}
