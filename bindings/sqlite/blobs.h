/* Geometries in blobs: WKB as it is, or within what GeoPackages and SpatiaLite put around it. Nothing here knows the host. */
#ifndef I_SHAPE_BLOBS_H
#define I_SHAPE_BLOBS_H

#include "polygons.h"

typedef enum { PLAIN, GEOPACKAGE, SPATIALITE } Form;

/* All bytes of a blob, and the WKB in it. */
typedef struct {
    Form form;
    const unsigned char *bytes, *wkb;
    size_t size, wkb_size;
    int32_t srid; /* of what is around the WKB */
} Blob;

/* Why a blob can't be read; NULL where its form doesn't say so. The WKB of SpatiaLite's is not there yet. */
const char *open_blob(const void *bytes, size_t size, Blob *blob);
/* Puts the WKB of SpatiaLite's blob into wkb_size bytes, and says why it can't be read, as open_blob does. */
const char *copy_wkb(Blob *blob, unsigned char *wkb);

/* How long a geometry is in the form of the given blob, and its bytes. SpatiaLite has none without points. */
size_t blob_size(const Blob *given, const Geometry *left);
void write_blob(const Blob *given, const Geometry *left, Grid grid, Pause pause, unsigned char *to);
/* The same of points. */
size_t point_blob_size(const Blob *given, const MultiPoint *points);
void write_point_blob(const Blob *given, const MultiPoint *points, Pause pause, unsigned char *to);
/* Whether a GeoPackage's or SpatiaLite's blob, read as a geometry, holds already what is left of it, whose blob has been written, so that what is around it may
 * stay too. */
bool is_unchanged(const Blob *given, const Geometry *read, const Geometry *left, const unsigned char *written);

/* What a GeoPackage's blob says of itself: whether it is empty, and its box, which is read from its points where it isn't there. These are false where the blob
 * is another one, and the second also where it has no points. */
bool says_empty(const void *bytes, size_t size, bool *is_empty);
bool box_of_blob(const void *bytes, size_t size, double box[4]);

#endif
