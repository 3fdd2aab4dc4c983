//! Tests of the merge, the source table, the node, the cue player, the patch, the console, the kinds of files and what is found in them that no rows say: beside
//! plain programs over generators, and where requests for memory are refused.

#[cfg(test)]
mod console;
#[cfg(test)]
mod cues;
#[cfg(test)]
mod faults;
#[cfg(test)]
mod findings;
#[cfg(test)]
mod kinds;
#[cfg(test)]
mod node;
#[cfg(test)]
mod packet_rows;
#[cfg(test)]
mod patch;
#[cfg(test)]
mod slots;
#[cfg(test)]
mod sources;
