"""geolint in QGIS: checks GeoJSON files by RFC 7946. See docs/qgis.md of geolint."""


def classFactory(iface):
    """What QGIS asks a plugin for."""
    from .plugin import Plugin

    return Plugin(iface)
