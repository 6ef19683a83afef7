//! Tests of the second program, one module for each part of the rules.

mod build;
mod changes;
mod clean;
mod context;
mod coverage;
mod demands;
mod examples;
mod generator;
mod judge_copy;
mod listings;
mod lookups;
mod octets;
mod pieces;
mod pinned;
mod program;
mod readings;
mod rows;
mod samples;
mod support;
mod void;
