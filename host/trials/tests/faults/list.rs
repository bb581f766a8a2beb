//! The faults, among them every wrong program that document 01's agreement names.

use crate::changes::*;
use crate::choices::*;
use crate::faulty::Fault;
use crate::faulty::Wrong::*;
use crate::fragments::*;
use crate::records::*;
use crate::searches::*;

/// The list from lines: what a fault is called, and what is wrong.
macro_rules! faults {
    ($($name:literal: $($wrong:expr),+;)*) => {
        /// All faults.
        pub const ALL: &[Fault] = &[$(Fault { name: $name, wrong: &[$($wrong),+] }),*];
    };
}

faults! {
    "new leaves old bytes in the running part": New(new_leaves_bytes);
    "rows are cut to 16 bits": New(rows_cut);
    "a refused new clears the record": New(refused_new_clears);

    "the first placement only changes the record": Place(first_place_only);
    "place looks at the number before the task": Place(number_before_task);
    "numbers are cut to 16 bits": Place(place_number_cut), Release(release_number_cut);
    "place cuts the column to 8 bits": Place(column_cut);
    "place cuts the bottom to 16 bits": Place(bottom_cut);
    "a 64th task is refused": Place(up_to_63_tasks);
    "place moves a second block to its grid": Place(place_on_the_grid);
    "place passes over a block in a column without a cell": Place(place_past_no_cells);
    "place moves at most 32 entries": Place(place_moves_32);
    "a number refused at one position runs at the next": Place(refused_number_runs);

    "release does nothing": Release(release_does_nothing);
    "release joins below only": Release(joins_below_only);
    "release between two free stretches joins neither": Release(joins_no_two);
    "release leaves the last entry's bytes": Release(release_leaves_bytes);
    "release finds nothing after 250 changes": Release(release_after_many);
    "release among 49 tasks frees logic only": Release(release_logic_only);
    "release between two held cells from half row 60 up is lost": Release(high_cell_lost);

    "no search": List(list_without_search), Choose(choose_without_search);
    "no position on a card that is almost full":
        List(list_unless_almost_full), Choose(choose_unless_almost_full);
    "no position with one offset of two steps":
        List(list_but_one_offset), Choose(choose_but_one_offset);
    "no position for three blocks of two steps":
        List(list_but_three_blocks), Choose(choose_but_three_blocks);
    "no position where the topmost alone is left": List(list_but_topmost);
    "list gives up above 300 ranges": List(list_up_to_300);
    "the same listing every time": List(fixed_listing);
    "list answers one range too many": List(one_range_too_many);
    "list clears the output behind the ranges": List(output_cleared);
    "list writes before it refuses": List(refusal_writes);
    "list looks at the output before the task": List(output_before_task);
    "list keeps to whole rows": List(whole_rows_only);
    "list splits a range": List(split_range);
    "searches move a second block to its grid":
        List(list_on_the_grid), Choose(choose_on_the_grid);
    "list passes over a block in a column without a cell": List(list_past_no_cells);
    "list leaves out column 63": List(list_without_column_63);
    "choose takes the first position": Choose(choose_first);
    "choose answers in 16 bits": Choose(choose_in_16_bits);
    "s has an interval for each block in it": Choose(counted_for_each_block);
    "s has intervals of two columns with one bottom once": Choose(told_apart_by_bottoms);
    "s has intervals of two columns with both ends alike once": Choose(told_apart_by_both_ends);
    "s has the lowest interval of a column only": Choose(lowest_of_a_column_only);
    "s has an interval again from its fifth block on": Choose(counted_again_from_the_fifth);
    "s leaves out a column's intervals from the third on": Choose(from_the_third_left_out);

    "interval count takes one column too many": Count(one_column_too_many);
    "interval count cuts the column to 8 bits": Count(count_of_column_cut);
    "interval count is wrong from 34 on": Count(count_up_to_33);

    "neighbouring columns never touch": Fragmentation(columns_never_touch);
    "ends that only meet touch": Fragmentation(ends_touch);
    "cells that share one half row do not touch": Fragmentation(one_half_row_is_too_little);
    "columns that are two apart touch": Fragmentation(two_apart_touch);
    "the last column touches none": Fragmentation(last_column_alone);
    "columns on both sides of one without a cell touch": Fragmentation(past_no_cells);
    "every touching pair is one set less": Fragmentation(pairs_counted);
    "a root is looked for four nodes up at most": Fragmentation(four_nodes_up);
    "the last column's cells are left out": Fragmentation(without_last_column);
    "sets are counted in 11 bits": Fragmentation(sets_in_11_bits);
    "a card without a free cell has one set": Fragmentation(one_set_at_least);
    "cells of memory are counted as two half rows": Fragmentation(memory_as_logic);
    "the degree is taken of all free cells": Fragmentation(divided_by_free);
    "the degree is rounded up": Fragmentation(rounded_up);
    "one free cell has a degree": Fragmentation(degree_of_one);
    "fragmentation of a bad record leaves its numbers": Fragmentation(refusal_leaves_numbers);

    "a block with top 256 is refused": RefusesTask(has_top_256);
    "a block in column 63 is refused": RefusesTask(has_column_63);
    "a task of 32 blocks is refused": RefusesTask(has_32_blocks);

    "all records are refused": RefusesRecord(always);
    "a column of 64 intervals is refused": RefusesRecord(has_64_intervals);
    "the last byte is not looked at": TakesRecord(without_last_byte);
    "the last interval count is not looked at": TakesRecord(without_last_count);
    "a record that is too long is taken": TakesRecord(without_what_is_too_long);
    "interval counts are cut to 7 bits": TakesRecord(with_counts_of_7_bits);
    "zeros are taken for a record": TakesRecord(with_a_device_for_zeros);
    "entries left behind the last are taken": TakesRecord(without_well_formed_entries_behind);
    "two tasks on the same cells are taken": TakesRecord(without_twins);
    "intervals that touch are taken": TakesRecord(with_touching_intervals_joined);
    "blocks that touch are taken in an entry": TakesRecord(with_touching_blocks_joined);
}
