//! The version of the C interface that this package is written for. The build script takes it from here too.

/// The number. The library exports `kuspigo_api_` with its own number behind it; an archive of another version does not link.
macro_rules! api {
    () => {
        3
    };
}
