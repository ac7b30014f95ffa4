/* Prints an order of named.capnp from standard input, by the names that annotations give. */
#include <stdio.h>

#include "named.capnp.h"
#include "prefixed.capnp.h"
#include "unprefixed.capnp.h"

int main(void) {
    static uint8_t frame[4096];
    struct capnp_segment room[4];
    struct capnp_message message;
    size_t size = fread(frame, 1, sizeof frame, stdin);
    shop_Purchase order;
    people_Order buyer;
    shop_Purchase_work job;
    shop_Purchase_Part_list parts;
    uint32_t i;
    if (shop_Purchase_open(&message, frame, size, room, 4, NULL) != 0) {
        printf("refusal %u: %s\n", (unsigned)message.refusal, shop_Purchase_refused(&message));
        return 1;
    }
    order = shop_Purchase_root(&message);
    buyer = shop_Purchase_buyer(&order);
    job = shop_Purchase_get_work(&order);
    printf("%u %s %u %s %u", (unsigned)shop_Purchase_id(&order), shop_Purchase_category(&order).text, (unsigned)shop_Purchase_colour(&order),
           people_Order_name(&buyer).text, (unsigned)shop_const_most);
    switch (shop_Purchase_work_get_which(&job)) {
    case shop_Purchase_work_which_nothing: printf(" nothing"); break;
    case shop_Purchase_work_which_paid: {
        shop_Purchase_work_paid paid = shop_Purchase_work_get_paid(&job);
        printf(" %u", (unsigned)shop_Purchase_work_paid_sum(&paid));
        break;
    }
    case shop_Purchase_work_which_get:
        parts = shop_Purchase_work_get_(&job);
        for (i = 0; i < shop_Purchase_Part_list_count(&parts); i++) {
            shop_Purchase_Part part = shop_Purchase_Part_list_at(&parts, i);
            printf(" %s %u %u", shop_Purchase_Part_name(&part).text, (unsigned)shop_Purchase_Part_size(&part), (unsigned)shop_Purchase_Part_weight(&part));
        }
        break;
    default: break;
    }
    printf(" %d %d %d\n", shop_Paint_red, shop_Paint_grass, shop_Paint_blue);
    return 0;
}
