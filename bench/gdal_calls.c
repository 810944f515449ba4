/* gdal_calls.c - see gdal_calls.h. */
#include "gdal_calls.h"

#ifdef WITH_GDAL

#include <cpl_conv.h>
#include <cpl_error.h>
#include <cpl_vsi.h>
#include <gdal.h>

static const char CELL[] = "/vsimem/cell.dt2", EDITED[] = "/vsimem/edited.dt2", WRITTEN[] = "/vsimem/written.dt2";
static int across, down;
static double corner[6];
static GDALDatasetH open_cell, open_edited, source;

const char *gdal_version(void) { return GDALVersionInfo("RELEASE_NAME"); }

/* Opens lent bytes as a file in memory. */
static GDALDatasetH open_bytes(const char *name, uint8_t *bytes, size_t length, GDALAccess access) {
    VSILFILE *file = VSIFileFromMemBuffer(name, bytes, length, FALSE);
    if (!file || VSIFCloseL(file) != 0)
        return NULL;
    return GDALOpen(name, access);
}

bool gdal_start(uint8_t *cell, uint8_t *edited, size_t length, int columns, int posts, int latitude, int longitude) {
    GDALAllRegister();
    CPLSetConfigOption("DTED_VERIFY_CHECKSUM", "YES");
    CPLSetErrorHandler(CPLQuietErrorHandler);
    across = columns;
    down = posts;
    corner[1] = 1.0 / (columns - 1);
    corner[5] = -1.0 / (posts - 1);
    corner[0] = longitude - corner[1] / 2;
    corner[3] = latitude + 1 - corner[5] / 2;
    open_cell = open_bytes(CELL, cell, length, GA_ReadOnly);
    open_edited = open_bytes(EDITED, edited, length, GA_Update);
    return open_cell && open_edited;
}

static bool read_window(GDALDatasetH set, int x, int y, int wide, int high, int16_t *into) {
    GDALRasterBandH band = GDALGetRasterBand(set, 1);
    return GDALRasterIO(band, GF_Read, x, y, wide, high, into, wide, high, GDT_Int16, 0, 0) == CE_None;
}

bool gdal_read_all(int16_t *heights) {
    GDALDatasetH set = GDALOpen(CELL, GA_ReadOnly);
    if (!set)
        return false;
    bool done = read_window(set, 0, 0, across, down, heights);
    GDALClose(set);
    return done;
}

bool gdal_read_post(int column, int post, int16_t *height) {
    bool done = read_window(open_cell, column, down - 1 - post, 1, 1, height);
    GDALFlushRasterCache(GDALGetRasterBand(open_cell, 1));
    return done;
}

bool gdal_edit_post(int column, int post, int16_t height) {
    GDALRasterBandH band = GDALGetRasterBand(open_edited, 1);
    bool done = GDALRasterIO(band, GF_Write, column, down - 1 - post, 1, 1, &height, 1, 1, GDT_Int16, 0, 0) == CE_None;
    return GDALFlushRasterCache(band) == CE_None && done;
}

bool gdal_give(int16_t *rows) {
    source = GDALCreate(GDALGetDriverByName("MEM"), "", across, down, 1, GDT_Int16, NULL);
    if (!source || GDALSetGeoTransform(source, corner) != CE_None)
        return false;
    GDALRasterBandH band = GDALGetRasterBand(source, 1);
    return GDALRasterIO(band, GF_Write, 0, 0, across, down, rows, across, down, GDT_Int16, 0, 0) == CE_None;
}

bool gdal_write(void) {
    GDALDatasetH set = GDALCreateCopy(GDALGetDriverByName("DTED"), WRITTEN, source, FALSE, NULL, NULL, NULL);
    if (!set)
        return false;
    GDALClose(set);
    return VSIUnlink(WRITTEN) == 0;
}

#else

const char *gdal_version(void) { return NULL; }

bool gdal_start(uint8_t *cell, uint8_t *edited, size_t length, int columns, int posts, int latitude, int longitude) {
    (void)cell, (void)edited, (void)length, (void)columns, (void)posts, (void)latitude, (void)longitude;
    return false;
}

bool gdal_read_all(int16_t *heights) { return heights == NULL; }

bool gdal_read_post(int column, int post, int16_t *height) {
    (void)column, (void)post;
    return height == NULL;
}

bool gdal_edit_post(int column, int post, int16_t height) {
    (void)column, (void)post, (void)height;
    return false;
}

bool gdal_give(int16_t *rows) { return rows == NULL; }

bool gdal_write(void) { return false; }

#endif
