// The derive of the crate save_state's stand-in: a structure's fields in the order of their declaration, over proc_macro's tokens alone. It knows what the
// original has: structures of named fields, with plain type parameters or none, fields marked #[savable(skip)], and sets of flags marked
// #[savable(bitflags)].
extern crate proc_macro;
use proc_macro::{Delimiter, TokenStream, TokenTree};
use std::iter::Peekable;

type Tokens = Peekable<proc_macro::token_stream::IntoIter>;

// A pulse's duty row, which an image leaves out: it follows from the duty.
const DUTY_ROW: &str = "sequencer_data";

fn is(token: Option<&TokenTree>, text: &str) -> bool {
    token.is_some_and(|token| token.to_string() == text)
}

/// The marks before a structure or a field: the words of its #[savable(..)].
fn marks(tokens: &mut Tokens) -> String {
    let mut words = String::new();
    while is(tokens.peek(), "#") {
        tokens.next();
        let Some(TokenTree::Group(mark)) = tokens.next() else { panic!("a mark has brackets") };
        let mut inner = mark.stream().into_iter();
        if is(inner.next().as_ref(), "savable") {
            words += &inner.map(|token| token.to_string()).collect::<String>();
        }
    }
    words
}

/// Everything up to a mark of punctuation outside < and >, as text; the mark is taken too.
fn up_to(tokens: &mut Tokens, end: &str) -> String {
    let (mut text, mut depth) = (String::new(), 0);
    for token in tokens.by_ref() {
        let word = token.to_string();
        if depth == 0 && word == end {
            break;
        }
        depth += i32::from(word == "<") - i32::from(word == ">");
        text += &word;
        text += " ";
    }
    text
}

/// The names of the fields that are kept, in order, and whether there is a duty row.
fn fields(body: TokenStream) -> (Vec<String>, bool) {
    let (mut tokens, mut kept, mut duty_row): (Tokens, _, _) = (body.into_iter().peekable(), Vec::new(), false);
    while tokens.peek().is_some() {
        let skipped = marks(&mut tokens).contains("skip");
        let name = up_to(&mut tokens, ":").split_whitespace().last().expect("a field has a name").to_string();
        up_to(&mut tokens, ",");
        duty_row |= name == DUTY_ROW;
        if !skipped && name != DUTY_ROW {
            kept.push(name);
        }
    }
    (kept, duty_row)
}

/// The statements that save and load: field by field; a set of flags as its bits; a duty row by the original's own rule, from the duty that was loaded.
fn statements(flags: bool, body: TokenStream) -> (String, String) {
    if flags {
        return ("self.bits().save(to);".into(), "let mut bits = self.bits(); bits.load(from); *self = Self::from_bits_truncate(bits);".into());
    }
    let (kept, duty_row) = fields(body);
    let each = |call: &str| kept.iter().map(|name| format!("self.{name}.{call};")).collect::<String>();
    let row = if duty_row { "let duty = self.duty; self.write_pattern_duty(duty);" } else { "" };
    (each("save(to)"), each("load(from)") + row)
}

#[proc_macro_derive(Savable, attributes(savable))]
pub fn savable(input: TokenStream) -> TokenStream {
    let mut tokens = input.into_iter().peekable();
    let flags = marks(&mut tokens).contains("bitflags");
    up_to(&mut tokens, "struct");
    let name = tokens.next().expect("a structure has a name");
    let mut parameters = String::new();
    if is(tokens.peek(), "<") {
        tokens.next();
        parameters = up_to(&mut tokens, ">");
    }
    let names: Vec<&str> = parameters.split(',').filter_map(|parameter| parameter.split(':').next()).map(str::trim).filter(|name| !name.is_empty()).collect();
    let bounds: String = names.iter().map(|name| format!("{name}: Savable,")).collect();
    let body = tokens.find_map(|token| match token {
        TokenTree::Group(group) if group.delimiter() == Delimiter::Brace => Some(group.stream()),
        _ => None,
    });
    let (save, load) = statements(flags, body.expect("a structure has fields"));
    let names = names.join(",");
    let text = format!(
        "const _: () = {{ use ::save_state::Savable; impl<{parameters}> Savable for {name}<{names}> where {bounds} {{ \
         fn save(&self, to: &mut Vec<u8>) {{ {save} }} fn load(&mut self, from: &mut &[u8]) {{ {load} }} }} }};"
    );
    text.parse().expect("the derive writes Rust")
}
