/* One counter, counted and printed. */
#include <dirgwako.h>
#include <stdio.h>

int main(void) {
    static char text[4096];
    dirgwako_registry registry = {0};
    dirgwako_recorder recorder = {0};
    dirgwako_counter visits;
    size_t len;
    if (dirgwako_registry_new(&registry, 1) || dirgwako_recorder_take(&registry, &recorder)) return 1;
    if (dirgwako_counter_new(&registry, "visits_total", "Visits so far.", &visits)) return 1;
    if (dirgwako_inc(&recorder, &visits, 3) || dirgwako_scrape(&registry, text, sizeof text, &len)) return 1;
    fwrite(text, 1, len, stdout);
    return dirgwako_recorder_free(&recorder) || dirgwako_registry_free(&registry);
}
