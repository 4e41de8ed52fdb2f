//! Specifications of two kinds, written as makers write them and scaled up: each is a head and so many units, `#` standing for the unit's number. A text is filled up to its size with a comment.

/// What is common to a text, and what every unit adds to each section, in the text's order: DEFINITIONS, INPUTS, OUTPUTS, REQUIRE, ASSUME, ASSERT, GUARANTEE.
pub struct Kind {
    pub name: &'static str,
    info: &'static str,
    global: &'static str,
    unit: [&'static str; 7],
}

/// Doors of a lift, one unit a landing: single signals, a bus by an enumeration that leaves a word unnamed, a definition, `X[n]` and `F[n:m]`.
pub const DOORS: Kind = Kind {
    name: "lift doors",
    info: "\
INFO {
  TITLE:       \"Lift doors\"
  DESCRIPTION: \"The doors of every landing, with a light curtain\"
  SEMANTICS:   Mealy
  TARGET:      Mealy
}
",
    global: "\
GLOBAL {
  PARAMETERS { patience = 2; }
  DEFINITIONS {
    enum motion =
      still:   00
      opening: 01
      closing: 10;
",
    unit: [
        "    // landing #: somebody waits, or stands between the doors\n    wanted# = call# || curtain#;\n",
        "    call#; curtain#;\n",
        "    motion door#;\n",
        "",
        "    // landing #: nobody stands between the doors for ever\n    G F !curtain#;\n",
        "    // landing #: a door that meets somebody does not close on\n    door# == closing && curtain# -> X[2] (door# != closing);\n    door# == opening -> X (door# != closing);\n",
        "    // landing #: who waits finds the door open in time\n    G (wanted# -> F[0:patience] (door# == opening));\n    G (door# == opening -> (door# == opening U !curtain#));\n",
    ],
};

/// Arbiters with a parameter, one unit a channel: buses, sets, big operators over sets and bounds, a definition with a big operator in a big operator.
pub const ARBITERS: Kind = Kind {
    name: "arbiters",
    info: "\
INFO {
  TITLE:       \"Arbiters\"
  DESCRIPTION: \"Channels, each shared by so many clients\"
  SEMANTICS:   Mealy
  TARGET:      Mealy
}
",
    global: "\
GLOBAL {
  PARAMETERS { clients = 2; }
  DEFINITIONS {
    all = {0, 1 .. clients - 1};
",
    unit: [
        "    // channel #: at most one client is served at a time, whoever asks\n    alone# = &&[i IN all] &&[j IN all (-) {i}] !(grant#[i] && grant#[j]);\n",
        "    request#[clients];\n",
        "    grant#[clients];\n",
        "    // channel #: a client asks until it is served\n    &&[0 <= i < clients] (request#[i] && !grant#[i] -> X request#[i]);\n",
        "",
        "    alone#; SIZEOF grant# == clients;\n    // channel #: nobody is served unasked\n    &&[0 <= i < clients] (grant#[i] -> request#[i]);\n",
        "    // channel #: everybody is served some day\n    &&[i IN all] G (request#[i] -> F grant#[i]);\n",
    ],
};

/// The sections after the definitions, each with what closes the one before it.
const SECTIONS: [&str; 6] = [
    "  }\n}\nMAIN {\n  INPUTS {\n",
    "  }\n  OUTPUTS {\n",
    "  }\n  REQUIRE {\n",
    "  }\n  ASSUME {\n",
    "  }\n  ASSERT {\n",
    "  }\n  GUARANTEE {\n",
];

impl Kind {
    fn with_units(&self, units: usize) -> String {
        let mut text = self.info.to_string() + self.global;
        let openings = [""].into_iter().chain(SECTIONS);
        for (opening, part) in openings.zip(self.unit) {
            text += opening;
            (0..units).for_each(|n| text += &part.replace('#', &n.to_string()));
        }
        text + "  }\n}\n"
    }

    /// The most units that fit so many bytes, and a comment to fill them.
    pub fn text(&self, size: usize) -> Vec<u8> {
        let fits = |units: &usize| self.with_units(*units).len() + 4 <= size;
        let units = (1..).take_while(fits).last().expect("a unit fits");
        let mut text = self.with_units(units).into_bytes();
        text.extend_from_slice(b"// ");
        text.resize(size - 1, b'.');
        text.push(b'\n');
        text
    }
}

/// The same text with other models.
pub fn with_models(text: &[u8], semantics: &str, target: &str) -> Vec<u8> {
    let text = std::str::from_utf8(text).expect("a text of these kinds");
    let [stated, targeted] = ["SEMANTICS:   ", "TARGET:      "].map(|word| format!("{word}Mealy"));
    text.replacen(&stated, &stated.replace("Mealy", semantics), 1)
        .replacen(&targeted, &targeted.replace("Mealy", target), 1)
        .into_bytes()
}
