"""A plugin of QGIS: polygons cleaned and tested on a grid, by the package i_shape."""


def classFactory(iface):
    """Return the plugin, as QGIS asks for it."""
    from .provider import Plugin
    return Plugin()
