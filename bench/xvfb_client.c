/* Plays a script on an X server, with plain windows: standard input has the script, and the dumps go to standard output.
   For bench/against_xvfb.sh, which prints both programs' times.

   Each leaf is a window of one colour, a child of the root window, which has the colour of the desk. The steps are `move`, `lift`,
   `tint`, `force`, `motion`, `mouse` and `key`. X has no cages and no inboxes, so `cage` and `take` are passed over: each
   window hears of each motion in it, and the client reads what it is sent as it goes. */
#include <X11/Xlib.h>
#include <X11/Xutil.h>
#include <X11/extensions/XTest.h>
#include <stdbool.h>
#include <stdio.h>
#include <stdlib.h>
#include <string.h>

enum { MOST_WINDOWS = 32, MOST_NAME = 17, MOST_LINE = 1026, STEPS_UNREAD = 256 };

/* A key that each keyboard has. */
enum { KEYCODE = 38 };

static const long HEARD = PointerMotionMask | ButtonPressMask | ButtonReleaseMask | KeyPressMask | KeyReleaseMask;

struct leaf {
    char name[MOST_NAME];
    Window window;
};

struct player {
    Display *display;
    Window root;
    int wide, high;
    struct leaf leaves[MOST_WINDOWS];
    int count;
    long steps, events;
};

static void fail(const char *why) {
    fprintf(stderr, "xvfb_client: %s\n", why);
    exit(1);
}

/* The window of a leaf; none for a node, which has no window of its own. */
static Window window_of(const struct player *player, const char *name) {
    for (int i = 0; i < player->count; i++)
        if (strcmp(player->leaves[i].name, name) == 0) return player->leaves[i].window;
    return None;
}

static void make_leaf(struct player *player, const char *name, int wide, int high, unsigned long colour) {
    if (player->count == MOST_WINDOWS) fail("too many windows");
    XSetWindowAttributes attributes = {.override_redirect = True, .background_pixel = colour, .event_mask = HEARD};
    struct leaf *leaf = &player->leaves[player->count++];
    strcpy(leaf->name, name);
    leaf->window = XCreateWindow(player->display, player->root, 0, 0, wide, high, 0, CopyFromParent, InputOutput,
                                 CopyFromParent, CWOverrideRedirect | CWBackPixel | CWEventMask, &attributes);
}

/* A window that is put comes in front of those before it. */
static void put(struct player *player, const char *name, int h, int v) {
    Window window = window_of(player, name);
    if (window == None) return;
    XMoveWindow(player->display, window, h, v);
    XMapRaised(player->display, window);
}

static void colour_root(struct player *player, unsigned long colour) {
    XSetWindowBackground(player->display, player->root, colour);
    XClearWindow(player->display, player->root);
}

/* Prints the screen, two digits for each pixel. */
static void dump(struct player *player) {
    XImage *image = XGetImage(player->display, player->root, 0, 0, player->wide, player->high, AllPlanes, ZPixmap);
    char *row = malloc(2 * (size_t)player->wide + 1);
    if (!image || image->bits_per_pixel != 8 || !row) fail("the screen can't be read");
    printf("dump %d %d map8\n", player->wide, player->high);
    for (int v = 0; v < player->high; v++) {
        const unsigned char *pixels = (const unsigned char *)image->data + (size_t)v * image->bytes_per_line;
        for (int h = 0; h < player->wide; h++) {
            row[2 * h] = "0123456789abcdef"[pixels[h] >> 4];
            row[2 * h + 1] = "0123456789abcdef"[pixels[h] & 15];
        }
        row[2 * player->wide] = '\n';
        fwrite(row, 1, 2 * (size_t)player->wide + 1, stdout);
    }
    free(row);
    XDestroyImage(image);
}

/* Reads the events that have come. */
static void hear(struct player *player) {
    XEvent event;
    while (XPending(player->display)) {
        XNextEvent(player->display, &event);
        player->events++;
    }
}

/* Does what a line of the opening asks for. */
static void open_with(struct player *player, const char *line) {
    char name[MOST_NAME], parent[MOST_NAME];
    int wide, high, h, v;
    unsigned long colour;
    if (sscanf(line, "screen %d %d", &wide, &high) == 2) {
        if (wide != player->wide || high != player->high) fail("the screen has another size");
    } else if (sscanf(line, "node %16s z %lu", name, &colour) == 2) {
        colour_root(player, colour);
    } else if (sscanf(line, "leaf %16s %*d %d %*d %*d %d %*d solid %lu", name, &wide, &high, &colour) == 4) {
        make_leaf(player, name, wide, high, colour);
    } else if (sscanf(line, "put %16s %16s %d %d", name, parent, &h, &v) == 4) {
        put(player, name, h, v);
    } else if (sscanf(line, "root %16s", name) == 1) {
        put(player, name, 0, 0);
    }
}

/* Makes a step of a client or of the user; whether it is one that X has. */
static bool make_step(struct player *player, const char *line) {
    Display *display = player->display;
    char name[MOST_NAME], way[MOST_NAME], word[MOST_NAME];
    int h, v, button;
    unsigned long colour;
    Window window = None;
    if (sscanf(line, "@%16s %16s", name, word) == 2 || sscanf(line, "%16s %16s", word, name) == 2)
        window = window_of(player, name);
    if (window != None && sscanf(line, "@%*s tint %lu", &colour) == 1) {
        XSetWindowBackground(display, window, colour);
        XClearWindow(display, window);
    } else if (window != None && line[0] == '@' && strcmp(word, "force") == 0) {
        XClearWindow(display, window);
    } else if (window != None && sscanf(line, "move %*s %d %d", &h, &v) == 2) {
        XMoveWindow(display, window, h, v);
    } else if (window != None && strcmp(word, "lift") == 0) {
        XRaiseWindow(display, window);
    } else if (sscanf(line, "motion %*d %d %d", &h, &v) == 2) {
        XTestFakeMotionEvent(display, -1, h, v, CurrentTime);
    } else if (sscanf(line, "mouse %*d %16s %d", way, &button) == 2) {
        XTestFakeButtonEvent(display, button, strcmp(way, "down") == 0, CurrentTime);
    } else if (strncmp(line, "key ", 4) == 0) {
        XTestFakeKeyEvent(display, KEYCODE, True, CurrentTime);
        XTestFakeKeyEvent(display, KEYCODE, False, CurrentTime);
    } else {
        return false;
    }
    return true;
}

int main(void) {
    struct player player = {.display = XOpenDisplay(NULL)};
    char line[MOST_LINE];
    if (!player.display) fail("there is no X server");
    int screen = DefaultScreen(player.display);
    if (DefaultDepth(player.display, screen) != 8) fail("a pixel is to have 8 bits");
    player.root = RootWindow(player.display, screen);
    player.wide = DisplayWidth(player.display, screen);
    player.high = DisplayHeight(player.display, screen);
    bool is_open = false;
    while (fgets(line, sizeof line, stdin)) {
        if (strcmp(line, "begin\n") == 0) is_open = true;
        if (!is_open) open_with(&player, line);
        else if (strcmp(line, "dump\n") == 0) dump(&player);
        else if (make_step(&player, line) && ++player.steps % STEPS_UNREAD == 0) hear(&player);
    }
    XSync(player.display, False);
    hear(&player);
    XCloseDisplay(player.display);
    fprintf(stderr, "steps=%ld events=%ld\n", player.steps, player.events);
    return 0;
}
