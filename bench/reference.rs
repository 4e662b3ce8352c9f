// An independent, straightforward version of the console's jobs in plain Rust, to compare answers and speed with.
// It knows the lines `open G ledger N`, `principal`, `statement`, `file`, `strike` and `check`; gates and files are as the documents say.
use std::env;
use std::fs;
use std::io::{self, BufWriter, Write};

#[derive(Clone, Copy, PartialEq)]
struct Fact {
    sign: bool,
    row: u16,
    world: u16,
}

#[derive(Clone, Copy, PartialEq)]
struct Link {
    sign: bool,
    row: u16,
    from: u16,
    to: u16,
}

#[derive(Clone, Copy, PartialEq)]
enum Kept {
    Fact(Fact),
    Link(Link),
}

#[derive(Clone, Copy, PartialEq)]
struct Fork {
    facts: u16,
    links: u16,
    worlds: u16,
    kept: Kept,
}

const NO_FACT: Fact = Fact { sign: false, row: 0, world: 0 };
const NO_LINK: Link = Link { sign: false, row: 0, from: 0, to: 0 };
const NO_FORK: Fork = Fork { facts: 0, links: 0, worlds: 0, kept: Kept::Fact(NO_FACT) };

type Denial = (u8, u64);

#[derive(Clone, Copy)]
struct Entry {
    serial: u16,
    standing: u8,
    row: u16,
}

struct Gate {
    principals: Vec<(u8, u16, u16)>,
    statements: Vec<(u8, u16, u16)>,
    book: Vec<Entry>,
    places: usize,
}

impl Gate {
    fn new(places: usize) -> Gate {
        Gate { principals: Vec::new(), statements: Vec::new(), book: Vec::new(), places: places.min(1024) }
    }

    fn principal(&mut self, form: u8, x: u16, y: u16) -> Result<usize, Denial> {
        let known = self.principals.len() as u16;
        let fits = match form {
            1 => x < 64 && y == 0,
            2 | 3 => x < known && y < known,
            _ => return Err((1, 0)),
        };
        Gate::name(&mut self.principals, 64, fits, (form, x, y))
    }

    fn statement(&mut self, form: u8, x: u16, y: u16) -> Result<usize, Denial> {
        let people = self.principals.len() as u16;
        let known = self.statements.len() as u16;
        let fits = match form {
            1 => x < 128 && y == 0,
            2 => x < known && y == 0,
            3 => x < known && y < known,
            4 => x < people && y < known,
            5 => x < people && y < people,
            _ => return Err((1, 0)),
        };
        Gate::name(&mut self.statements, 256, fits, (form, x, y))
    }

    fn name(table: &mut Vec<(u8, u16, u16)>, limit: usize, fits: bool, row: (u8, u16, u16)) -> Result<usize, Denial> {
        if !fits {
            return Err((2, 0));
        }
        if let Some(n) = table.iter().position(|r| *r == row) {
            return Ok(n);
        }
        if table.len() == limit {
            return Err((3, 0));
        }
        table.push(row);
        Ok(table.len() - 1)
    }

    fn file(&mut self, serial: u16, standing: u8, row: u16) -> Result<(), Denial> {
        if standing != 1 && standing != 2 {
            return Err((4, 0));
        }
        if row as usize >= self.statements.len() {
            return Err((5, 0));
        }
        if serial == 0 {
            return Err((6, 0));
        }
        match self.book.binary_search_by_key(&serial, |e| e.serial) {
            Ok(_) => Err((8, serial as u64)),
            Err(_) if self.book.len() == self.places => Err((9, serial as u64)),
            Err(at) => {
                self.book.insert(at, Entry { serial, standing, row });
                Ok(())
            }
        }
    }

    fn strike(&mut self, serial: u16) -> Result<(), Denial> {
        match self.book.binary_search_by_key(&serial, |e| e.serial) {
            Ok(at) => {
                self.book.remove(at);
                Ok(())
            }
            Err(_) => Err((11, serial as u64)),
        }
    }

    fn lookup(&self, serial: u16) -> Option<Entry> {
        self.book.binary_search_by_key(&serial, |e| e.serial).ok().map(|at| self.book[at])
    }

    fn check(&self, file: &[u8], facts: &mut [Fact], links: &mut [Link], forks: &mut [Fork]) -> Result<u16, Denial> {
        let answer = self.walk(file, facts, links, forks);
        facts.fill(NO_FACT);
        links.fill(NO_LINK);
        forks.fill(NO_FORK);
        answer
    }

    fn walk(&self, file: &[u8], facts: &mut [Fact], links: &mut [Link], forks: &mut [Fork]) -> Result<u16, Denial> {
        let number = |i: usize| u16::from_be_bytes([file[i], file[i + 1]]);
        if file.len() < 10 || &file[..3] != b"PMT" {
            return Err((14, 0));
        }
        if number(3) != 1 {
            return Err((15, 3));
        }
        if file[5] != 1 {
            return Err((16, 5));
        }
        let request = number(6);
        if request as usize >= self.statements.len() {
            return Err((17, 6));
        }
        let count = number(8);
        if count == 0 || count > 8000 {
            return Err((18, 8));
        }
        if file.len() != 10 + 7 * count as usize {
            return Err((19, 10));
        }
        let max_facts = facts.len().min(4096);
        let max_links = links.len().min(4096);
        let max_forks = forks.len().min(4096);
        if max_facts == 0 {
            return Err((25, 0));
        }
        facts[0] = Fact { sign: false, row: request, world: 0 };
        let (mut nf, mut nl, mut nk, mut worlds, mut complete) = (1usize, 0usize, 0usize, 1u16, false);
        for (i, bytes) in file[10..].chunks_exact(7).enumerate() {
            let at = i as u64 + 1;
            if complete {
                return Err((20, at));
            }
            let code = bytes[0];
            let a = u16::from_be_bytes([bytes[1], bytes[2]]);
            let b = u16::from_be_bytes([bytes[3], bytes[4]]);
            let c = u16::from_be_bytes([bytes[5], bytes[6]]);
            let idle = match code {
                1 | 6 | 8 | 12 | 14 | 15 => c == 0,
                2 | 3 | 4 | 5 | 7 | 9 | 10 | 11 => b == 0 && c == 0,
                13 => true,
                _ => false,
            };
            if !idle {
                return Err((21, at));
            }
            let fact = |n: u16| if (n as usize) < nf { Ok(facts[n as usize]) } else { Err((22, at)) };
            let link = |n: u16| if (n as usize) < nl { Ok(links[n as usize]) } else { Err((22, at)) };
            let row = |n: u16| self.principals.get(n as usize).copied().ok_or((22u8, at));
            let form = |f: Fact| self.statements[f.row as usize];
            let room = |f: usize, l: usize, w: u16, k: usize| {
                if nf + f <= max_facts && nl + l <= max_links && worlds + w <= 1024 && nk + k <= max_forks {
                    Ok(())
                } else {
                    Err((25, at))
                }
            };
            let entry = |standing: u8| match self.lookup(a) {
                Some(e) if e.standing == standing && (e.row as usize) < self.statements.len() => Ok(e.row),
                _ => Err((23, at)),
            };
            let no_fit = Err((24, at));
            let mut closes = false;
            match code {
                1 => {
                    if b >= worlds {
                        return Err((22, at));
                    }
                    let n = entry(1)?;
                    room(1, 0, 0, 0)?;
                    facts[nf] = Fact { sign: true, row: n, world: b };
                    nf += 1;
                }
                2 => {
                    let n = entry(2)?;
                    room(1, 0, 0, 0)?;
                    facts[nf] = Fact { sign: true, row: n, world: 0 };
                    nf += 1;
                }
                3 => {
                    let f = fact(a)?;
                    let (2, s, _) = form(f) else { return no_fit };
                    room(1, 0, 0, 0)?;
                    facts[nf] = Fact { sign: !f.sign, row: s, world: f.world };
                    nf += 1;
                }
                4 => {
                    let f = fact(a)?;
                    let (3, s, t) = form(f) else { return no_fit };
                    if !f.sign {
                        return no_fit;
                    }
                    room(2, 0, 0, 0)?;
                    facts[nf] = Fact { sign: true, row: s, world: f.world };
                    facts[nf + 1] = Fact { sign: true, row: t, world: f.world };
                    nf += 2;
                }
                5 => {
                    let f = fact(a)?;
                    let (3, s, t) = form(f) else { return no_fit };
                    if f.sign {
                        return no_fit;
                    }
                    room(1, 0, 0, 1)?;
                    let kept = Kept::Fact(Fact { sign: false, row: t, world: f.world });
                    forks[nk] = Fork { facts: nf as u16, links: nl as u16, worlds, kept };
                    nk += 1;
                    facts[nf] = Fact { sign: false, row: s, world: f.world };
                    nf += 1;
                }
                6 => {
                    let f = fact(a)?;
                    let l = link(b)?;
                    let (4, p, s) = form(f) else { return no_fit };
                    if !f.sign || !l.sign || l.row != p || l.from != f.world {
                        return no_fit;
                    }
                    room(1, 0, 0, 0)?;
                    facts[nf] = Fact { sign: true, row: s, world: l.to };
                    nf += 1;
                }
                7 => {
                    let f = fact(a)?;
                    let (4, p, s) = form(f) else { return no_fit };
                    if f.sign {
                        return no_fit;
                    }
                    room(1, 1, 1, 0)?;
                    links[nl] = Link { sign: true, row: p, from: f.world, to: worlds };
                    facts[nf] = Fact { sign: false, row: s, world: worlds };
                    nl += 1;
                    nf += 1;
                    worlds += 1;
                }
                8 => {
                    let f = fact(a)?;
                    let l = link(b)?;
                    let (5, p, q) = form(f) else { return no_fit };
                    if !f.sign || !l.sign || l.row != q {
                        return no_fit;
                    }
                    room(0, 1, 0, 0)?;
                    links[nl] = Link { sign: true, row: p, from: l.from, to: l.to };
                    nl += 1;
                }
                9 => {
                    let f = fact(a)?;
                    let (5, p, q) = form(f) else { return no_fit };
                    if f.sign {
                        return no_fit;
                    }
                    room(0, 2, 2, 0)?;
                    links[nl] = Link { sign: true, row: q, from: worlds, to: worlds + 1 };
                    links[nl + 1] = Link { sign: false, row: p, from: worlds, to: worlds + 1 };
                    nl += 2;
                    worlds += 2;
                }
                10 => {
                    let l = link(a)?;
                    let (2, p, q) = self.principals[l.row as usize] else { return no_fit };
                    if !l.sign {
                        return no_fit;
                    }
                    room(0, 1, 0, 1)?;
                    let kept = Kept::Link(Link { sign: true, row: q, ..l });
                    forks[nk] = Fork { facts: nf as u16, links: nl as u16, worlds, kept };
                    nk += 1;
                    links[nl] = Link { sign: true, row: p, ..l };
                    nl += 1;
                }
                11 => {
                    let l = link(a)?;
                    let (3, p, q) = self.principals[l.row as usize] else { return no_fit };
                    if !l.sign {
                        return no_fit;
                    }
                    room(0, 2, 1, 0)?;
                    links[nl] = Link { sign: true, row: p, from: l.from, to: worlds };
                    links[nl + 1] = Link { sign: true, row: q, from: worlds, to: l.to };
                    nl += 2;
                    worlds += 1;
                }
                12 => {
                    let l = link(a)?;
                    let (2, p, q) = row(b)? else { return no_fit };
                    if !l.sign || (l.row != p && l.row != q) {
                        return no_fit;
                    }
                    room(0, 1, 0, 0)?;
                    links[nl] = Link { sign: true, row: b, ..l };
                    nl += 1;
                }
                13 => {
                    let l = link(a)?;
                    let m = link(b)?;
                    let (3, p, q) = row(c)? else { return no_fit };
                    if !l.sign || !m.sign || l.row != p || m.row != q || l.to != m.from {
                        return no_fit;
                    }
                    room(0, 1, 0, 0)?;
                    links[nl] = Link { sign: true, row: c, from: l.from, to: m.to };
                    nl += 1;
                }
                14 => {
                    let (f, g) = (fact(a)?, fact(b)?);
                    if !f.sign || g.sign || f.row != g.row || f.world != g.world {
                        return no_fit;
                    }
                    closes = true;
                }
                _ => {
                    let (l, m) = (link(a)?, link(b)?);
                    if !l.sign || m.sign || l.row != m.row || l.from != m.from || l.to != m.to {
                        return no_fit;
                    }
                    closes = true;
                }
            }
            if closes {
                if nk == 0 {
                    complete = true;
                } else {
                    nk -= 1;
                    let fork = forks[nk];
                    nf = fork.facts as usize;
                    nl = fork.links as usize;
                    worlds = fork.worlds;
                    match fork.kept {
                        Kept::Fact(f) => {
                            facts[nf] = f;
                            nf += 1;
                        }
                        Kept::Link(l) => {
                            links[nl] = l;
                            nl += 1;
                        }
                    }
                }
            }
        }
        if complete { Ok(request) } else { Err((26, count as u64)) }
    }
}

fn origin(number: u8) -> &'static str {
    match number {
        6..=9 | 11 | 30 | 31 | 34 => "book",
        14..=19 | 27 | 28 => "file",
        20..=26 => "line",
        _ => "gate",
    }
}

fn denied(d: Denial) -> String {
    format!("denied {} place {} origin {}", d.0, d.1, origin(d.0))
}

fn command(gate: &mut Option<Gate>, words: &[&str]) -> Option<String> {
    let n = |i: usize| words.get(i)?.parse::<usize>().ok();
    let named = |r: Result<usize, Denial>| match r {
        Ok(n) => format!("row {n}"),
        Err(d) => denied(d),
    };
    let done = |r: Result<(), Denial>, yes: &str| match r {
        Ok(()) => yes.to_string(),
        Err(d) => denied(d),
    };
    match (words[0], gate) {
        ("open", gate) => {
            *gate = Some(Gate::new(n(3)?));
            Some(format!("gate {} open", words[1]))
        }
        ("principal", Some(g)) => Some(named(g.principal(n(1)? as u8, n(2)? as u16, n(3)? as u16))),
        ("statement", Some(g)) => Some(named(g.statement(n(1)? as u8, n(2)? as u16, n(3)? as u16))),
        ("file", Some(g)) => Some(done(g.file(n(1)? as u16, n(2)? as u8, n(3)? as u16), "filed")),
        ("strike", Some(g)) => Some(done(g.strike(n(1)? as u16), "struck")),
        ("check", Some(g)) => {
            let file = fs::read(words.get(1)?).ok()?;
            let sizes = match words.len() {
                2 => [4096; 3],
                5 => [n(2)?, n(3)?, n(4)?],
                _ => return None,
            };
            if sizes.iter().any(|size| *size > 1_000_000) {
                return None;
            }
            let mut facts = vec![NO_FACT; sizes[0]];
            let mut links = vec![NO_LINK; sizes[1]];
            let mut forks = vec![NO_FORK; sizes[2]];
            Some(match g.check(&file, &mut facts, &mut links, &mut forks) {
                Ok(row) => format!("keeps row {row}"),
                Err(d) => denied(d),
            })
        }
        _ => None,
    }
}

fn main() -> io::Result<()> {
    let job = fs::read_to_string(env::args().nth(1).expect("a job"))?;
    let mut out = BufWriter::new(io::stdout().lock());
    let mut gate = None;
    for (i, line) in job.lines().enumerate() {
        let words: Vec<&str> = line.split(' ').filter(|w| !w.is_empty()).collect();
        if words.is_empty() || line.starts_with('#') {
            continue;
        }
        let answer = command(&mut gate, &words).unwrap_or("unreadable".to_string());
        writeln!(out, "{}: {}", i + 1, answer)?;
    }
    out.flush()
}
