//! Sections and their lines.

use super::*;

#[derive(Default)]
pub(super) struct Global {
    pub(super) parameters: Vec<Binding>,
    pub(super) definitions: Vec<Binding>,
    pub(super) enumerations: Vec<Enumeration>,
}

#[derive(Default)]
pub(super) struct Main {
    pub(super) inputs: Vec<Signal>,
    pub(super) outputs: Vec<Signal>,
    pub(super) sections: Vec<Section>,
    pub(super) seen: Vec<&'static str>,
}

impl Parser<'_> {
    // 01: 'INFO's lines come in the printed order, TAGS optional'.
    pub(super) fn info(&mut self) -> Parsed<Info> {
        self.expect("INFO")?;
        self.expect("{")?;
        self.quoted_line("TITLE")?;
        self.quoted_line("DESCRIPTION")?;
        self.line_start("SEMANTICS")?;
        let semantics = self.model()?;
        let strict = self.strict()?;
        self.line_start("TARGET")?;
        let target = self.model()?;
        self.tags()?;
        self.expect("}")?;
        Ok(Info {
            semantics,
            strict,
            target,
        })
    }

    fn line_start(&mut self, word: &str) -> Parsed<()> {
        self.expect(word)?;
        self.expect(":")?;
        Ok(())
    }

    fn quoted_line(&mut self, word: &str) -> Parsed<()> {
        self.line_start(word)?;
        self.expect_kind(Kind::Quoted)?;
        Ok(())
    }

    fn model(&mut self) -> Parsed<Model> {
        if self.skip("Mealy") {
            return Ok(Model::Mealy);
        }
        self.expect("Moore")?;
        Ok(Model::Moore)
    }

    fn strict(&mut self) -> Parsed<bool> {
        if !self.skip(",") {
            return Ok(false);
        }
        self.expect("Strict")?;
        Ok(true)
    }

    // G3: at least one tag, commas between, none at the end.
    fn tags(&mut self) -> Parsed<()> {
        if !self.sees("TAGS") {
            return Ok(());
        }
        self.line_start("TAGS")?;
        self.tag()?;
        while self.skip(",") {
            self.tag()?;
        }
        Ok(())
    }

    // 01: 'a tag being a name or string'.
    fn tag(&mut self) -> Parsed<()> {
        match self.kind() {
            Some(Kind::Name | Kind::Quoted) => {
                self.advance();
                Ok(())
            }
            _ => self.refuse(),
        }
    }

    // 01: 'PARAMETERS stands before DEFINITIONS, either may be missing'.
    pub(super) fn global(&mut self) -> Parsed<Global> {
        let mut global = Global::default();
        if !self.skip("GLOBAL") {
            return Ok(global);
        }
        self.expect("{")?;
        if self.skip("PARAMETERS") {
            self.list(|parser| {
                let binding = parser.binding()?;
                global.parameters.push(binding);
                Ok(())
            })?;
        }
        if self.skip("DEFINITIONS") {
            self.list(|parser| parser.definition(&mut global))?;
        }
        self.expect("}")?;
        Ok(global)
    }

    // G2: `;` separates, the last may be missing.
    fn list(&mut self, mut line: impl FnMut(&mut Self) -> Parsed<()>) -> Parsed<()> {
        self.expect("{")?;
        while !self.skip("}") {
            line(self)?;
            if !self.skip(";") {
                self.expect("}")?;
                return Ok(());
            }
        }
        Ok(())
    }

    fn binding(&mut self) -> Parsed<Binding> {
        let name = self.name()?;
        self.expect("=")?;
        let value = self.outermost()?;
        Ok(Binding { name, value })
    }

    fn definition(&mut self, global: &mut Global) -> Parsed<()> {
        if self.skip("enum") {
            let enumeration = self.enumeration()?;
            global.enumerations.push(enumeration);
        } else {
            let binding = self.binding()?;
            global.definitions.push(binding);
        }
        Ok(())
    }

    // G10: at least one identifier, no `;` between.
    fn enumeration(&mut self) -> Parsed<Enumeration> {
        let name = self.name()?;
        self.expect("=")?;
        let mut identifiers = vec![self.identifier()?];
        while self.kind() == Some(Kind::Name) {
            identifiers.push(self.identifier()?);
        }
        Ok(Enumeration {
            name,
            identifiers,
            end: self.at,
        })
    }

    // G10: at least one word, a comma is followed by a word.
    fn identifier(&mut self) -> Parsed<Identifier> {
        let name = self.name()?;
        self.expect(":")?;
        let mut words = vec![self.expect_kind(Kind::Marks)?];
        while self.skip(",") {
            words.push(self.expect_kind(Kind::Marks)?);
        }
        Ok(Identifier { name, words })
    }

    // 01: 'MAIN's subsections stand in any order, each at most once'.
    pub(super) fn main(&mut self) -> Parsed<Main> {
        let mut main = Main::default();
        self.expect("MAIN")?;
        self.expect("{")?;
        while let Some(subsection) = self.fixed().and_then(subsection_word) {
            if main.seen.contains(&subsection) {
                return self.refuse();
            }
            main.seen.push(subsection);
            self.advance();
            self.subsection(subsection, &mut main)?;
        }
        // G1: INPUTS and OUTPUTS are required.
        if !main.seen.contains(&"INPUTS") || !main.seen.contains(&"OUTPUTS") {
            return self.refuse();
        }
        self.expect("}")?;
        Ok(main)
    }

    fn subsection(&mut self, subsection: &str, main: &mut Main) -> Parsed<()> {
        let Some(kind) = section_kind(subsection) else {
            let output = subsection == "OUTPUTS";
            let signals = if output {
                &mut main.outputs
            } else {
                &mut main.inputs
            };
            return self.list(|parser| {
                signals.push(parser.signal(output)?);
                Ok(())
            });
        };
        let mut lines = Vec::new();
        self.list(|parser| {
            lines.push(parser.outermost()?);
            Ok(())
        })?;
        main.sections.push(Section { kind, lines });
        Ok(())
    }

    // 001, 4.5: `name`, `name[width]` or `enumtype name`.
    fn signal(&mut self, output: bool) -> Parsed<Signal> {
        let first = self.name()?;
        let (name, shape) = if self.kind() == Some(Kind::Name) {
            (self.advance(), Shape::Enumerated(first))
        } else if self.skip("[") {
            let width = self.outermost()?;
            self.expect("]")?;
            (first, Shape::Bus(width))
        } else {
            (first, Shape::Single)
        };
        Ok(Signal {
            name,
            output,
            shape,
        })
    }
}

// 01: 'the v1.0 names are read as their v1.1 ones'.
fn subsection_word(word: &'static str) -> Option<&'static str> {
    Some(match word {
        "INVARIANTS" => "ASSERT",
        "ASSUMPTIONS" => "ASSUME",
        "GUARANTEES" => "GUARANTEE",
        "INPUTS" | "OUTPUTS" => word,
        _ => section_kind(word).map(|_| word)?,
    })
}

fn section_kind(word: &str) -> Option<SectionKind> {
    Some(match word {
        "INITIALLY" => SectionKind::Initially,
        "PRESET" => SectionKind::Preset,
        "REQUIRE" => SectionKind::Require,
        "ASSERT" => SectionKind::Assert,
        "ASSUME" => SectionKind::Assume,
        "GUARANTEE" => SectionKind::Guarantee,
        _ => return None,
    })
}
