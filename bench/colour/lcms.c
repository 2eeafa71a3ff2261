// The colours of the benchmark by littleCMS: the same profiles and codes, each value of 16 bits.
#include <lcms2.h>
#include <stdint.h>
#include <stdio.h>
#include <stdlib.h>
#include <time.h>

#define COLOURS 200000

static uint64_t state = 1;

static uint16_t word(void)
{
    state = state * 6364136223846793005u + 1442695040888963407u;
    return state >> 48;
}

// RGB by a matrix of these columns, and curves of 1,024 entries, the squares of their places.
static cmsHPROFILE matrix_of(const int columns[9])
{
    static const cmsTagSignature colorants[] = {cmsSigRedColorantTag, cmsSigGreenColorantTag, cmsSigBlueColorantTag};
    static const cmsTagSignature curves[] = {cmsSigRedTRCTag, cmsSigGreenTRCTag, cmsSigBlueTRCTag};
    uint16_t squares[1024];
    for (uint32_t k = 0; k < 1024; k++)
        squares[k] = k * k / 16;
    cmsHPROFILE profile = cmsCreateProfilePlaceholder(NULL);
    cmsSetProfileVersion(profile, 2.4);
    cmsSetDeviceClass(profile, cmsSigDisplayClass);
    cmsSetColorSpace(profile, cmsSigRgbData);
    cmsSetPCS(profile, cmsSigXYZData);
    for (int k = 0; k < 3; k++) {
        cmsCIEXYZ xyz = {columns[3 * k] / 65536.0, columns[3 * k + 1] / 65536.0, columns[3 * k + 2] / 65536.0};
        cmsWriteTag(profile, colorants[k], &xyz);
        cmsToneCurve *curve = cmsBuildTabulatedToneCurve16(NULL, 1024, squares);
        cmsWriteTag(profile, curves[k], curve);
        cmsFreeToneCurve(curve);
    }
    return profile;
}

// CMYK to Lab by a lattice of 9 points along each channel, between tables of 33 entries and of 2.
static cmsHPROFILE lattice(void)
{
    uint16_t entries[33];
    uint16_t *nodes = malloc(19683 * sizeof *nodes);
    cmsToneCurve *curves[4];
    for (int channel = 0; channel < 4; channel++) {
        for (int k = 0; k < 33; k++)
            entries[k] = word();
        curves[channel] = cmsBuildTabulatedToneCurve16(NULL, 33, entries);
    }
    for (int k = 0; k < 19683; k++)
        nodes[k] = word();
    cmsHPROFILE profile = cmsCreateProfilePlaceholder(NULL);
    cmsSetProfileVersion(profile, 2.4);
    cmsSetDeviceClass(profile, cmsSigOutputClass);
    cmsSetColorSpace(profile, cmsSigCmykData);
    cmsSetPCS(profile, cmsSigLabData);
    cmsPipeline *lut = cmsPipelineAlloc(NULL, 4, 3);
    cmsPipelineInsertStage(lut, cmsAT_END, cmsStageAllocToneCurves(NULL, 4, curves));
    cmsPipelineInsertStage(lut, cmsAT_END, cmsStageAllocCLut16bit(NULL, 9, 4, 3, nodes));
    cmsWriteTag(profile, cmsSigAToB0Tag, lut);
    cmsPipelineFree(lut);
    free(nodes);
    return profile;
}

static void measure(const char *name, cmsHPROFILE source, int form, int channels, cmsHPROFILE target,
                    const uint16_t *codes, cmsUInt32Number flags)
{
    uint16_t *in = malloc(COLOURS * 4 * sizeof *in), *out = malloc(COLOURS * 3 * sizeof *out);
    for (int k = 0; k < COLOURS; k++)
        for (int channel = 0; channel < channels; channel++)
            in[k * channels + channel] = codes[4 * k + channel];
    cmsHTRANSFORM link = cmsCreateTransform(source, form, target, TYPE_RGB_16, INTENT_RELATIVE_COLORIMETRIC,
                                            flags | cmsFLAGS_NOCACHE);
    if (!link) {
        fprintf(stderr, "%s: no transform\n", name);
        exit(1);
    }
    struct timespec from, to;
    clock_gettime(CLOCK_MONOTONIC, &from);
    cmsDoTransform(link, in, out, COLOURS);
    clock_gettime(CLOCK_MONOTONIC, &to);
    fprintf(stderr, "%s: %ld ns\n", name, (to.tv_sec - from.tv_sec) * 1000000000L + to.tv_nsec - from.tv_nsec);
    cmsDeleteTransform(link);
    free(in);
    free(out);
}

int main(void)
{
    static const int srgb[9] = {28579, 14582, 913, 25236, 46981, 6364, 9377, 3973, 46804};
    static const int adobe[9] = {39960, 20389, 1276, 13453, 41004, 3989, 9777, 4143, 48796};
    cmsHPROFILE matrix = matrix_of(srgb), four = lattice(), target = matrix_of(adobe);
    uint16_t *codes = malloc(COLOURS * 4 * sizeof *codes);
    for (int k = 0; k < COLOURS * 4; k++)
        codes[k] = word() / 256 * 257;
    measure("matrix to matrix, step by step", matrix, TYPE_RGB_16, 3, target, codes, cmsFLAGS_NOOPTIMIZE);
    measure("matrix to matrix, optimized", matrix, TYPE_RGB_16, 3, target, codes, 0);
    measure("lattice to matrix, step by step", four, TYPE_CMYK_16, 4, target, codes, cmsFLAGS_NOOPTIMIZE);
    measure("lattice to matrix, optimized", four, TYPE_CMYK_16, 4, target, codes, 0);
    return 0;
}
