//! Names: refusals 6, 7 and 8.

use crate::answer::Refusal;
use crate::limits;
use crate::syntax::*;
use std::collections::HashMap;
use std::ops::Range;

/// What a name stands for.
#[derive(Clone, Copy, Debug, PartialEq, Eq)]
pub enum Referent {
    Parameter(usize),
    Definition(usize),
    EnumerationType(usize),
    EnumerationValue {
        enumeration: usize,
        identifier: usize,
    },
    Signal(usize),
    Bound(usize),
}

/// What the name at each token that uses one stands for.
pub struct Names {
    referents: HashMap<TokenId, Referent>,
}

/// A declared name, with the tokens at which it is visible.
struct Declaration {
    name: TokenId,
    visible: Range<TokenId>,
    referent: Referent,
}

type ByName<'s> = HashMap<&'s [u8], Vec<Declaration>>;

impl Names {
    /// The referent of the name used at a token.
    pub fn referent(&self, token: TokenId) -> Referent {
        self.referents[&token]
    }
}

/// Refusals 6, 7, 8 in this order; otherwise what each name stands for.
pub fn resolve(syntax: &Syntax) -> Result<Names, Refusal> {
    let declarations = declarations(syntax);
    let names = check_visible(syntax, &declarations)?;
    check_declared_once(syntax, &declarations)?;
    check_count(syntax, &declarations)?;
    Ok(names)
}

fn declarations<'s>(syntax: &'s Syntax) -> ByName<'s> {
    let mut all = Vec::new();
    declare_bindings(syntax, &syntax.parameters, Referent::Parameter, &mut all);
    declare_bindings(syntax, &syntax.definitions, Referent::Definition, &mut all);
    declare_enumerations(syntax, &mut all);
    declare_signals(syntax, &mut all);
    declare_bound_names(syntax, &mut all);
    let mut by_name: ByName<'s> = HashMap::new();
    for declaration in all {
        let name = syntax.bytes(declaration.name);
        by_name.entry(name).or_default().push(declaration);
    }
    by_name
}

// 01: 'A parameter, enumeration or definition is visible after its line'.
fn declare_bindings(
    syntax: &Syntax,
    bindings: &[Binding],
    referent: impl Fn(usize) -> Referent,
    all: &mut Vec<Declaration>,
) {
    for (number, binding) in bindings.iter().enumerate() {
        all.push(Declaration {
            name: binding.name,
            visible: syntax.exprs[binding.value].end..usize::MAX,
            referent: referent(number),
        });
    }
}

fn declare_enumerations(syntax: &Syntax, all: &mut Vec<Declaration>) {
    for (number, enumeration) in syntax.enumerations.iter().enumerate() {
        let visible = enumeration.end..usize::MAX;
        all.push(Declaration {
            name: enumeration.name,
            visible: visible.clone(),
            referent: Referent::EnumerationType(number),
        });
        for (identifier, named) in enumeration.identifiers.iter().enumerate() {
            all.push(Declaration {
                name: named.name,
                visible: visible.clone(),
                referent: Referent::EnumerationValue {
                    enumeration: number,
                    identifier,
                },
            });
        }
    }
}

// 01: 'signals and buses everywhere'.
fn declare_signals(syntax: &Syntax, all: &mut Vec<Declaration>) {
    for (number, signal) in syntax.signals.iter().enumerate() {
        all.push(Declaration {
            name: signal.name,
            visible: 0..usize::MAX,
            referent: Referent::Signal(number),
        });
    }
}

// 01: 'a big operator's name in the rest of its operator'; N3.
fn declare_bound_names(syntax: &Syntax, all: &mut Vec<Declaration>) {
    for expr in &syntax.exprs {
        let Form::Big { binders, .. } = &expr.form else {
            continue;
        };
        for binder in binders {
            all.push(Declaration {
                name: binder.name,
                visible: binder.visible_from..expr.end,
                referent: Referent::Bound(binder.id),
            });
        }
    }
}

/// All tokens that use a name: in expressions and as the type of a bus.
fn uses(syntax: &Syntax) -> Vec<TokenId> {
    let in_expressions = syntax
        .exprs
        .iter()
        .filter(|expr| matches!(expr.form, Form::Name | Form::Index(_)))
        .map(|expr| expr.first);
    let as_types = syntax
        .signals
        .iter()
        .filter_map(|signal| match signal.shape {
            Shape::Enumerated(type_name) => Some(type_name),
            _ => None,
        });
    in_expressions.chain(as_types).collect()
}

// Refusal 6: name not visible, at the name.
fn check_visible(syntax: &Syntax, declarations: &ByName) -> Result<Names, Refusal> {
    let mut referents = HashMap::new();
    let mut unseen = Vec::new();
    for used in uses(syntax) {
        let equal = declarations.get(syntax.bytes(used));
        let seen = equal
            .into_iter()
            .flatten()
            .find(|declaration| declaration.visible.contains(&used));
        match seen {
            Some(declaration) => {
                referents.insert(used, declaration.referent);
            }
            None => unseen.push(syntax.place(used)),
        }
    }
    Refusal::at_first(6, unseen)?;
    Ok(Names { referents })
}

// Refusal 7: visible name declared again, at the later name in the text.
fn check_declared_once(syntax: &Syntax, declarations: &ByName) -> Result<(), Refusal> {
    let mut later = Vec::new();
    for equal in declarations.values() {
        for (number, one) in equal.iter().enumerate() {
            for other in &equal[number + 1..] {
                if clash(one, other) {
                    later.push(syntax.place(one.name.max(other.name)));
                }
            }
        }
    }
    Refusal::at_first(7, later)
}

// N4: one is declared while the other is visible, or both reach the same place.
fn clash(one: &Declaration, other: &Declaration) -> bool {
    let both_reach =
        one.visible.start.max(other.visible.start) < one.visible.end.min(other.visible.end);
    both_reach || one.visible.contains(&other.name) || other.visible.contains(&one.name)
}

// Refusal 8: the 257th declared name in text order (N5); big operators' names are not counted.
fn check_count(syntax: &Syntax, declarations: &ByName) -> Result<(), Refusal> {
    let mut counted: Vec<TokenId> = declarations
        .values()
        .flatten()
        .filter(|declaration| !matches!(declaration.referent, Referent::Bound(_)))
        .map(|declaration| declaration.name)
        .collect();
    counted.sort_unstable();
    match counted.get(limits::DECLARED_NAMES) {
        Some(name) => syntax.refusal(8, *name),
        None => Ok(()),
    }
}
