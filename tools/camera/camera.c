/* A camera for tools/try-pull: GStreamer's RTSP server with two tracks of a file, H.264 and AAC as they are in it, at
 * rtsp://127.0.0.1:PORT/PATH. All its players are sent the same packets.
 *
 *   camera PORT open|digest|basic PATH FILE.mp4 [SHIFT]
 *
 * With digest or basic it asks for the user `admin` and the password `secret` in that way. PATH can have a query: it is then in the URLs of
 * the tracks, too. With SHIFT the channels of its tracks are those that a client asks for, plus SHIFT.
 * Built by: cc camera.c $(pkg-config --cflags --libs gstreamer-rtsp-server-1.0) -o camera */
#include <gst/gst.h>
#include <gst/rtsp-server/rtsp-server.h>
#include <stdio.h>
#include <stdlib.h>
#include <string.h>

static const char *MEDIA =
    "( filesrc location=\"%s\" ! qtdemux name=d "
    "d.video_0 ! queue ! h264parse ! rtph264pay name=pay0 pt=96 config-interval=-1 "
    "d.audio_0 ! queue ! aacparse ! rtpmp4gpay name=pay1 pt=97 )";

static int shift = 0;

static gboolean (*configure)(GstRTSPClient *, GstRTSPContext *, GstRTSPTransport *);

static gboolean configure_shifted(GstRTSPClient *client, GstRTSPContext *context, GstRTSPTransport *transport) {
    gboolean is_configured = configure(client, context, transport);
    transport->interleaved.min += shift;
    transport->interleaved.max += shift;
    return is_configured;
}

static void shift_channels(const char *word) {
    GstRTSPClientClass *class = g_type_class_ref(GST_TYPE_RTSP_CLIENT);
    shift = atoi(word);
    configure = class->configure_client_transport;
    class->configure_client_transport = configure_shifted;
}

static void require_password(GstRTSPServer *server, GstRTSPMediaFactory *factory, GstRTSPAuthMethod method) {
    GstRTSPAuth *auth = gst_rtsp_auth_new();
    GstRTSPToken *token = gst_rtsp_token_new(GST_RTSP_TOKEN_MEDIA_FACTORY_ROLE, G_TYPE_STRING, "user", NULL);
    gst_rtsp_auth_set_supported_methods(auth, method);
    if (method == GST_RTSP_AUTH_DIGEST) {
        gst_rtsp_auth_add_digest(auth, "admin", "secret", token);
    } else {
        gchar *basic = gst_rtsp_auth_make_basic("admin", "secret");
        gst_rtsp_auth_add_basic(auth, basic, token);
        g_free(basic);
    }
    gst_rtsp_token_unref(token);
    gst_rtsp_media_factory_add_role(factory, "user", GST_RTSP_PERM_MEDIA_FACTORY_ACCESS, G_TYPE_BOOLEAN, TRUE,
                                    GST_RTSP_PERM_MEDIA_FACTORY_CONSTRUCT, G_TYPE_BOOLEAN, TRUE, NULL);
    gst_rtsp_server_set_auth(server, auth);
    g_object_unref(auth);
}

static GstRTSPMediaFactory *of_file(const char *path) {
    GstRTSPMediaFactory *factory = gst_rtsp_media_factory_new();
    gchar *launch = g_strdup_printf(MEDIA, path);
    gst_rtsp_media_factory_set_launch(factory, launch);
    gst_rtsp_media_factory_set_shared(factory, TRUE);
    g_free(launch);
    return factory;
}

/* The server looks for DESCRIBE's path without its query, and for SETUP's with it. */
static void add_mounts(GstRTSPMountPoints *mounts, const char *word, GstRTSPMediaFactory *factory) {
    gchar *path = g_strdup_printf("/%s", word);
    gst_rtsp_mount_points_add_factory(mounts, path, factory);
    char *query = strchr(path, '?');
    if (query != NULL) {
        *query = 0;
        gst_rtsp_mount_points_add_factory(mounts, path, g_object_ref(factory));
    }
    g_free(path);
}

int main(int count, char **words) {
    if (count != 5 && count != 6) {
        fprintf(stderr, "usage: camera PORT open|digest|basic PATH FILE.mp4 [SHIFT]\n");
        return 2;
    }
    gst_init(NULL, NULL);
    if (count == 6) {
        shift_channels(words[5]);
    }
    GMainLoop *loop = g_main_loop_new(NULL, FALSE);
    GstRTSPServer *server = gst_rtsp_server_new();
    gst_rtsp_server_set_address(server, "127.0.0.1");
    gst_rtsp_server_set_service(server, words[1]);
    GstRTSPMediaFactory *factory = of_file(words[4]);
    if (strcmp(words[2], "open") != 0) {
        gboolean is_digest = strcmp(words[2], "digest") == 0;
        require_password(server, factory, is_digest ? GST_RTSP_AUTH_DIGEST : GST_RTSP_AUTH_BASIC);
    }
    GstRTSPMountPoints *mounts = gst_rtsp_server_get_mount_points(server);
    add_mounts(mounts, words[3], factory);
    g_object_unref(mounts);
    if (gst_rtsp_server_attach(server, NULL) == 0) {
        fprintf(stderr, "camera: can't listen on %s\n", words[1]);
        return 1;
    }
    puts("listening");
    fflush(stdout);
    g_main_loop_run(loop);
    return 0;
}
