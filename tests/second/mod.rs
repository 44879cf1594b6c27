// The method a second time, to compare the proved engine with. It was written by people who had not read the crates, from the texts that the words
// of docs/METHOD.md were made from, and shares nothing with the engine: its tables come from the whole powers of their rules, its searches are plain.
//   big      whole numbers of any size
//   method   the answer to a case, and the lanes question
//   lines    cases and answers as text, and the program's input and output
//   survey   surveyed speeds
//   day      a whole day in one call
//   daily    daily traffic in the place of the demand
//   forecast demand, heavy share and peak-hour factor known within ranges
//   figures  the numbers that these two write
//   distance the manual's multilane curve by whole powers
pub mod big;
pub mod daily;
pub mod day;
pub mod distance;
pub mod figures;
pub mod forecast;
pub mod lines;
pub mod method;
pub mod survey;
