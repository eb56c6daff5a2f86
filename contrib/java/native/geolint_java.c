/* The calls of Native.java, over geolint.h. A handle is the address of its memory, which Handle.java keeps: no other is passed, none
 * after it is freed, and one call at a time for each. */
#include <geolint.h>
#include <jni.h>

/* The bytes of an array are copied in such pieces, so that no collector waits for a call, and so that a thread that writes to the array
 * meanwhile does not change what is checked. The JVM leaves 80 KB of stack to a call. */
enum { PIECE = 16384 };

/* Where a report's numbers stand: as in Native.java. */
enum { VERDICT, NUMBER, PLACE, WARNINGS, REPORT = WARNINGS + 2 * GEOLINT_KINDS };
enum { INDEX, START, END, ID, OF_FEATURE, FINDING = OF_FEATURE + REPORT };
/* What nextFeature answers. */
enum { OPEN, REFUSED, FOUND };

/* The handle at an address: the call says of what type. */
static void *at(jlong address) {
    return (void *)(intptr_t)address;
}

JNIEXPORT void JNICALL Java_geolint_Native_free(JNIEnv *env, jclass native, jlong memory) {
    (void)env, (void)native;
    free(at(memory));
}

JNIEXPORT jlong JNICALL Java_geolint_Native_allocate(JNIEnv *env, jclass native, jint max_depth, jlong max_bytes) {
    (void)env, (void)native;
    return (jlong)(intptr_t)geolint_new((uint32_t)max_depth, (uint64_t)max_bytes);
}

JNIEXPORT jint JNICALL Java_geolint_Native_begin(JNIEnv *env, jclass native, jlong linter, jint max_depth, jlong max_bytes) {
    (void)env, (void)native;
    return (jint)geolint_begin_again(at(linter), (uint32_t)max_depth, (uint64_t)max_bytes);
}

JNIEXPORT jint JNICALL Java_geolint_Native_feed(JNIEnv *env, jclass native, jlong linter, jbyteArray bytes, jint offset, jint length) {
    jbyte piece[PIECE];
    uint32_t status;
    (void)native;
    do {
        jint size = length < PIECE ? length : PIECE;
        (*env)->GetByteArrayRegion(env, bytes, offset, size, piece);
        if ((*env)->ExceptionCheck(env))
            return GEOLINT_NULL;
        status = geolint_feed(at(linter), piece, (size_t)size);
        offset += size;
        length -= size;
    } while (length > 0 && status == GEOLINT_DONE);
    return (jint)status;
}

JNIEXPORT jboolean JNICALL Java_geolint_Native_doomed(JNIEnv *env, jclass native, jlong linter) {
    (void)env, (void)native;
    return geolint_doomed(at(linter)) ? JNI_TRUE : JNI_FALSE;
}

JNIEXPORT jlong JNICALL Java_geolint_Native_offset(JNIEnv *env, jclass native, jlong linter) {
    (void)env, (void)native;
    return (jlong)geolint_offset(at(linter));
}

/* Writes the numbers of a report. */
static void write_report(jlong *all, const geolint_report *report) {
    all[VERDICT] = report->verdict;
    all[NUMBER] = report->rule + report->cause; /* one of them is 0 */
    all[PLACE] = (jlong)report->place;
    for (int kind = 0; kind < GEOLINT_KINDS; kind++) {
        all[WARNINGS + 2 * kind] = (jlong)report->warnings[kind].count;
        all[WARNINGS + 2 * kind + 1] = (jlong)report->warnings[kind].first;
    }
}

/* Gives Java the numbers of a report. */
static void set_report(JNIEnv *env, jlongArray numbers, geolint_report report) {
    jlong all[REPORT];
    write_report(all, &report);
    (*env)->SetLongArrayRegion(env, numbers, 0, REPORT, all);
}

JNIEXPORT void JNICALL Java_geolint_Native_finish(JNIEnv *env, jclass native, jlong linter, jlongArray numbers) {
    (void)native;
    set_report(env, numbers, geolint_finish(at(linter)));
}

/* A text whose features are reported, with the bytes that were taken over of it. */
typedef struct walk {
    geolint_features *features;
    jint from, to;
    jbyte piece[PIECE];
} walk;

JNIEXPORT jlong JNICALL Java_geolint_Native_newFeatures(JNIEnv *env, jclass native, jint max_depth, jlong max_bytes) {
    size_t alignment = geolint_alignment();
    walk *it = (walk *)malloc(sizeof *it + geolint_features_size() + alignment);
    (void)env, (void)native;
    if (!it)
        return 0;
    it->features = (geolint_features *)(((uintptr_t)(it + 1) + alignment - 1) / alignment * alignment);
    it->from = it->to = 0;
    geolint_features_begin(it->features, (uint32_t)max_depth, (uint64_t)max_bytes);
    return (jlong)(intptr_t)it;
}

JNIEXPORT jint JNICALL Java_geolint_Native_fill(JNIEnv *env, jclass native, jlong features, jbyteArray bytes, jint offset, jint length) {
    walk *it = at(features);
    jint size = length < PIECE ? length : PIECE;
    (void)native;
    if (it->from < it->to || size <= 0)
        return 0;
    (*env)->GetByteArrayRegion(env, bytes, offset, size, it->piece);
    if ((*env)->ExceptionCheck(env))
        return 0;
    it->from = 0;
    it->to = size;
    return size;
}

JNIEXPORT jint JNICALL Java_geolint_Native_nextFeature(JNIEnv *env, jclass native, jlong features, jlongArray numbers) {
    walk *it = at(features);
    jlong all[FINDING];
    (void)native;
    for (;;) {
        geolint_progress progress;
        geolint_finding finding = geolint_features_next(it->features);
        if (finding.report.status == GEOLINT_DONE) {
            all[INDEX] = (jlong)finding.number;
            all[START] = (jlong)finding.place;
            all[END] = (jlong)finding.end;
            all[ID] = (jlong)finding.id;
            write_report(all + OF_FEATURE, &finding.report);
            (*env)->SetLongArrayRegion(env, numbers, 0, FINDING, all);
            return FOUND;
        }
        if (it->from == it->to)
            return OPEN;
        progress = geolint_features_feed(it->features, it->piece + it->from, (size_t)(it->to - it->from));
        it->from += (jint)progress.taken;
        if (progress.status != GEOLINT_DONE && !progress.ready)
            return REFUSED;
    }
}

JNIEXPORT void JNICALL Java_geolint_Native_finishFeatures(JNIEnv *env, jclass native, jlong features, jlongArray numbers) {
    (void)native;
    set_report(env, numbers, geolint_features_finish(((walk *)at(features))->features));
}

/* A run or a join of a text in parts. Their bytes lie in a buffer outside the heap, which one thread alone fills. */
JNIEXPORT jlong JNICALL Java_geolint_Native_newRun(JNIEnv *env, jclass native, jint max_depth, jlong place) {
    geolint_run *run = (geolint_run *)malloc(geolint_run_size());
    (void)env, (void)native;
    geolint_run_begin(run, (uint32_t)max_depth, (uint64_t)place);
    return (jlong)(intptr_t)run;
}

JNIEXPORT jlong JNICALL Java_geolint_Native_newJoin(JNIEnv *env, jclass native, jint max_depth, jlong max_bytes) {
    geolint_join *join = (geolint_join *)malloc(geolint_join_size());
    (void)env, (void)native;
    geolint_join_begin(join, (uint32_t)max_depth, (uint64_t)max_bytes);
    return (jlong)(intptr_t)join;
}

JNIEXPORT jint JNICALL Java_geolint_Native_feedRun(JNIEnv *env, jclass native, jlong run, jobject buffer, jint length, jlongArray numbers) {
    uint32_t status = geolint_run_feed(at(run), (*env)->GetDirectBufferAddress(env, buffer), (size_t)length);
    geolint_sum sum = geolint_run_sum(at(run));
    jlong all[] = {(jlong)sum.end, (jlong)sum.features, sum.ended};
    (void)native;
    (*env)->SetLongArrayRegion(env, numbers, 0, 3, all);
    return (jint)status;
}

JNIEXPORT jint JNICALL Java_geolint_Native_likely(JNIEnv *env, jclass native, jobject buffer, jint length) {
    (void)native;
    return (jint)geolint_run_likely((*env)->GetDirectBufferAddress(env, buffer), (size_t)length);
}

JNIEXPORT jint JNICALL Java_geolint_Native_feedJoin(JNIEnv *env, jclass native, jlong join, jobject buffer, jint length) {
    (void)native;
    return (jint)geolint_join_feed(at(join), (*env)->GetDirectBufferAddress(env, buffer), (size_t)length);
}

JNIEXPORT jboolean JNICALL Java_geolint_Native_passOver(JNIEnv *env, jclass native, jlong join, jlong run) {
    geolint_sum sum = geolint_run_sum(at(run));
    (void)env, (void)native;
    return geolint_join_pass_over(at(join), &sum) ? JNI_TRUE : JNI_FALSE;
}

JNIEXPORT void JNICALL Java_geolint_Native_finishJoin(JNIEnv *env, jclass native, jlong join, jlongArray numbers) {
    (void)native;
    set_report(env, numbers, geolint_join_finish(at(join)));
}

JNIEXPORT jstring JNICALL Java_geolint_Native_ruleText(JNIEnv *env, jclass native, jint rule) {
    (void)native;
    return (*env)->NewStringUTF(env, geolint_rule((uint32_t)rule));
}

JNIEXPORT jstring JNICALL Java_geolint_Native_causeText(JNIEnv *env, jclass native, jint cause) {
    (void)native;
    return (*env)->NewStringUTF(env, geolint_cause((uint32_t)cause));
}

JNIEXPORT jstring JNICALL Java_geolint_Native_warningText(JNIEnv *env, jclass native, jint kind) {
    (void)native;
    return (*env)->NewStringUTF(env, geolint_warning((uint32_t)kind));
}

JNIEXPORT jstring JNICALL Java_geolint_Native_version(JNIEnv *env, jclass native) {
    (void)native;
    return (*env)->NewStringUTF(env, geolint_version());
}
