/** Is a text GeoJSON (RFC 7946), and otherwise where and why not. */
module geolint {
    exports geolint;
}
