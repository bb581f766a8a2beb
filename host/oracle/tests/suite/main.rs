//! The oracle's tests, as one program: cards by hand, refusals, random cards, sheets.

mod cards;
mod choices;
mod combs;
mod damage;
mod fragments;
mod fragments_random;
mod helpers;
mod histories;
mod lines;
mod positions;
mod records;
mod refusals;
mod sheet_random;
mod sheet_rules;
mod soundness;
mod tasks;
