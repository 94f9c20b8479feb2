//! Names of people as European leagues write them, from a seed: each with its accents composed or decomposed.

const GIVEN: &str = "Anna, Peter, Maria, Jan, Elena, Thomas, Zoë, José, João, Inês, Núria, Begoña, François, Noémie, \
    Siân, Ciarán, Jürgen, Käthe, Søren, Åsa, Håkon, Þór, Guðrún, Sigríður, Ágnes, György, Łukasz, Małgorzata, Václav, \
    Ondřej, Šimon, Žofia, Željko, Ștefan, Ilinca, Gülşen, İpek, Jūratė, Mārtiņš, Õnne";

const FAMILY: &str = "Smith, Rossi, Novak, Jansen, Ionescu, Kowalski, O'Brien, Ó Súilleabháin, Lefèvre, Citroën, \
    Núñez, Ibáñez, Gonçalves, Conceição, Müller, Groß, Schäfer, Östergård, Ångström, Nørgaard, Björnsdóttir, \
    Hämäläinen, Mäkinen, Põld, Bērziņš, Žukauskas, Wałęsa, Żukowski, Dvořák, Čapek, Růžička, Kovács, Erdős, Szűcs, \
    Đorđević, Kovačević, Brânză, Öztürk, Yıldız, Şahin";

/// Each mark with letters, and with the same letters composed with it.
const MARKS: [(char, &str, &str); 14] = [
    ('\u{300}', "aeio", "àèìò"),
    ('\u{301}', "aceinouyAO", "áćéíńóúýÁÓ"),
    ('\u{302}', "aeiou", "âêîôû"),
    ('\u{303}', "anoO", "ãñõÕ"),
    ('\u{304}', "aeu", "āēū"),
    ('\u{306}', "ag", "ăğ"),
    ('\u{307}', "ezIZ", "ėżİŻ"),
    ('\u{308}', "aeiouO", "äëïöüÖ"),
    ('\u{30a}', "auA", "åůÅ"),
    ('\u{30b}', "ou", "őű"),
    ('\u{30c}', "cerszCSZ", "čěřšžČŠŽ"),
    ('\u{326}', "stST", "șțȘȚ"),
    ('\u{327}', "cnsS", "çņşŞ"),
    ('\u{328}', "ae", "ąę"),
];

/// All pairs of a composed letter and the same decomposed.
fn letters() -> impl Iterator<Item = (char, String)> {
    MARKS.into_iter().flat_map(|(mark, plain, composed)| {
        composed.chars().zip(plain.chars().map(move |letter| String::from_iter([letter, mark])))
    })
}

/// A name composed and decomposed.
type Forms = [String; 2];

fn forms(name: &str) -> Forms {
    let decomposed = letters().fold(name.to_string(), |name, (composed, letter)| name.replace(composed, &letter));
    [name.to_string(), decomposed]
}

pub struct Names {
    seed: u64,
    /// 2 where a name is composed or decomposed by chance, 1 where each is composed.
    forms: usize,
    initials: Vec<Forms>,
    given: Vec<Forms>,
    family: Vec<Forms>,
}

impl Names {
    pub fn new(seed: u64) -> Names {
        Names {
            seed,
            forms: 2,
            initials: letters().map(|(composed, letter)| [composed.to_string(), letter]).collect(),
            given: GIVEN.split(", ").map(forms).collect(),
            family: FAMILY.split(", ").map(forms).collect(),
        }
    }

    /// Names that are all composed.
    pub fn composed(seed: u64) -> Names {
        Names { forms: 1, ..Names::new(seed) }
    }

    /// The next number of SplitMix64, below n.
    fn below(&mut self, n: usize) -> usize {
        self.seed = self.seed.wrapping_add(0x9e37_79b9_7f4a_7c15);
        let x = (self.seed ^ (self.seed >> 30)).wrapping_mul(0xbf58_476d_1ce4_e5b9);
        let x = (x ^ (x >> 27)).wrapping_mul(0x94d0_49bb_1331_11eb);
        ((x ^ (x >> 31)) % n as u64) as usize
    }

    fn one(&mut self, of: fn(&Names) -> &[Forms]) -> String {
        let name = self.below(of(self).len());
        let form = self.below(self.forms);
        of(self)[name][form].clone()
    }

    fn initial(&mut self) -> String {
        self.one(|names| &names.initials)
    }

    /// So many letters with accents.
    pub fn accents(&mut self, n: usize) -> String {
        (0..n).map(|_| self.initial()).collect()
    }

    fn given(&mut self) -> String {
        self.one(|names| &names.given)
    }

    fn family(&mut self) -> String {
        self.one(|names| &names.family)
    }

    pub fn full(&mut self) -> String {
        format!("{} {}", self.given(), self.family())
    }

    /// A name with an accent, of 2 to 40 bytes.
    pub fn accented(&mut self) -> String {
        loop {
            let name = match self.below(8) {
                0 => self.initial(),
                1 => self.given(),
                2 => self.family(),
                3 | 4 => self.full(),
                5 | 6 => format!("{}-{}", self.full(), self.family()),
                _ => format!("{} {}-{}", self.given(), self.full(), self.family()),
            };
            if !name.is_ascii() && name.len() <= 40 {
                return name;
            }
        }
    }
}
