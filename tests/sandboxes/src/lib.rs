//! The tests of sandboxes: templates of the test plug-ins and of the tag library with their partials, over parents
//! that differ in all that a sandbox hides. Each table is one text of lines, a row each.

mod faulty_sites;
mod kinds;
mod lenient_library_rows;
mod lenient_rows;
mod lenient_sites;
mod parents;
mod plain_rows;
mod plain_sites;
mod refused_sites;
mod site_rows;
mod sites;
mod strangers;
mod tables;
