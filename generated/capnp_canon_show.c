/* This file is generated: don't edit it. It is the compiled form of the repository's proved sources, translated to C by
 * tools/c_of_module. docs/PROVED.md says what you have to trust. */
#include "capnp_canon.h"

static struct s_i8_i8 capnp_show_show_message_write_json_9d3526b9b0726c59(u8 *a_1, u64 a_2, u64 a_3, u8 *a_4, u64 a_5, u32 a_6, u8 *a_7);
static struct s_i8_i8 capnp_show_show_text_Text_push_number(u8 *a_1, u64 a_2);
static struct s_i8_i8 capnp_show_show_text_Text_push(u8 *a_1, u8 *a_2, u64 a_3);
static struct s_i8_i8 capnp_show_show_json_write_pointed_value_5ccc1be374b2e488(u8 *a_1, u32 a_2, u8 *a_3);
static struct s_i8_i8 capnp_show_show_json_Json_write_place(u8 *a_1, u8 *a_2, u64 a_3, u64 a_4, u32 a_5);
static struct s_i8_i8 capnp_show_show_text_Text_push_last_number(u8 *a_1, u8 *a_2, u64 a_3, u64 a_4);
static struct s_i8_i8 capnp_show_show_text_Text_push_quoted(u8 *a_1, u8 *a_2, u64 a_3);
static struct s_i8_i8 capnp_show_show_json_write_sections_5ccc1be374b2e488(u8 *a_1, u16 a_2, u16 a_3, u32 a_4, u8 *a_5);
static struct s_i8_i8 capnp_show_show_json_write_pointer_array_5ccc1be374b2e488(u8 a_1, u8 *a_2, u32 a_3, u32 a_4, u8 *a_5);
static struct s_i8_i8 capnp_show_show_text_Text_push_array_start(u8 *a_1, u8 a_2);
static struct s_i8_i8 capnp_show_show_text_Text_push_sizes(u8 *a_1, u16 a_2, u16 a_3);
static struct s_i8_i8 capnp_show_show_json_write_struct_elements_5ccc1be374b2e488(u8 *a_1, u16 a_2, u16 a_3, u32 a_4, u32 a_5, u8 *a_6);
static struct s_i8_i8 capnp_show_show_json_Json_write_refusal(u8 *a_1, u8 *a_2, u64 a_3);
static void capnp_show_show_lines_show_pointer_5ccc1be374b2e488(u8 *a_1, u32 a_2, u8 *a_3);
static void capnp_show_show_lines_Lines_write_path(u8 *a_1);
static void capnp_show_show_lines_Lines_begin(u8 *a_1, u8 a_2);
static struct s_i8_i8 capnp_show_show_path_push_path(u8 *a_1, u8 *a_2, u64 a_3);
static void capnp_show_show_lines_Lines_write_place(u8 *a_1, u64 a_2, u32 a_3);
static void capnp_show_show_lines_Lines_write_part(u8 *a_1, u8 *a_2, u64 a_3);
static void capnp_show_show_lines_Lines_write_struct(u8 *a_1, u8 *a_2, u16 a_3, u16 a_4);
static void capnp_show_show_lines_Lines_write_sizes(u8 *a_1, u16 a_2, u16 a_3);
static struct s_i8_i8 capnp_show_show_text_Text_push_hex_number(u8 *a_1, u64 a_2);
static void capnp_show_show_lines_show_pointers_5ccc1be374b2e488(u8 *a_1, u32 a_2, u8 a_3, u32 a_4, u8 *a_5);
static void capnp_show_show_lines_Lines_write_depth_cut(u8 *a_1, u32 a_2);
static void capnp_show_show_lines_Lines_write_list_cut(u8 *a_1, u8 a_2);
static void capnp_show_show_lines_Lines_write_refusal(u8 *a_1, u8 *a_2, u64 a_3);
static void capnp_show_show_compare_make_line_9d3526b9b0726c59(u8 *a_1, u8 *a_2, u8 *a_3);
static void capnp_show_show_compare_make_line_up_to_9d3526b9b0726c59(u8 *a_1, u8 *a_2, u8 *a_3, u8 *a_4);
static struct s_i8_i8 capnp_show_show_compare_push_found(u8 *a_1, u8 *a_2);

/* capnp_show::show::message::make_json::<#9d3526b9b0726c59> */
void capnp_show_show_message_make_json_9d3526b9b0726c59(u8 *a_1, u8 *a_2, u8 *a_3, u64 a_4, u64 a_5, u8 *a_6, u64 a_7, u8 *a_8)
{
    A(1) u8 slot_1[1];
    A(8) u8 slot_2[120];
    A(2) u8 slot_3[126];
    A(8) u8 slot_4[120];
    A(2) u8 slot_5[126];
    struct s_i8_i8 r_5j;
    u8 *r_x5;
    u8 *r_zd;
    u64 r_xx;
    u64 r_c8;
    u64 r_br;
    u8 *r_2b;
    u64 r_io;
    u8 r_7z;
    u8 r_kd;
    u8 r_dd = ld8((a_2 + 1));
    u32 r_5k = ld32((a_2 + 4));
    u8 r_dh = ld8(a_3);
    u64 r_qw = ld64(away(a_3, 8ull));
    memset(slot_5, 0u, 126);
    stp(slot_4, slot_1);
    memset((slot_4 + 8), 0u, 16);
    st8((slot_4 + 24), 1u);
    memset((slot_4 + 25), 0u, 7);
    st64((slot_4 + 32), (u64)r_dh);
    st64((slot_4 + 40), r_qw);
    st64((slot_4 + 48), 0ull);
    st8((slot_4 + 56), (u8)((u8)(r_dd & 1u) ^ 1u));
    memset((slot_4 + 57), 0u, 63);
    r_5j = capnp_show_show_message_write_json_9d3526b9b0726c59(a_8, a_4, a_5, a_6, a_7, r_5k, slot_4);
    if (!(r_5j.f0 == 0u)) goto l_arm_ao;
    memcpy((slot_5 + 6), slot_4, 120);
    r_kd = 0u;
    goto l_join_0b;
l_arm_ao:;
    if (!(r_5j.f1 == 0u)) goto l_arm_st;
    memset(slot_3, 0u, 126);
    memcpy(slot_2, slot_4, 120);
    r_x5 = (slot_2 + 8);
    st64(r_x5, 0ull);
    r_zd = (slot_2 + 16);
    u64 r_52 = ld64(r_zd);
    if (!(r_52 < 17ull)) { r_xx = r_52; r_c8 = 0ull; goto l_join_if; }
    u8 r_vs = std_alloc_vec_Vec_grow_amortized_9634afabedddd7ee(slot_2, 17ull);
    if (!r_vs) goto l_arm_i7;
    r_xx = ld64(r_zd);
    r_c8 = ld64(r_x5);
l_join_if:;
    r_br = (r_c8 + 17ull);
    r_2b = away(ldp(slot_2), r_c8);
    if (((u64)(uptr)r_2b - (u64)(uptr)((u8 *)g_static_258)) < 17ull) { r_io = 0ull; goto l_join_rx; }
    mv17(r_2b, ((u8 *)g_static_258));
    goto l_arm_pd;
l_join_rx:;
    st8((r_2b + (i64)(r_io)), ld8((((u8 *)g_static_258) + (i64)(r_io))));
    u64 r_c4 = (r_io + 1ull);
    if (!(r_c4 == 17ull)) { r_io = r_c4; goto l_join_rx; }
l_arm_pd:;
    st64(r_x5, r_br);
    st64(r_zd, r_xx);
    memcpy((slot_3 + 6), slot_2, 120);
    r_7z = 0u;
    goto l_capnp_gm;
l_arm_i7:;
    if (ld64(r_zd) == 0ull) goto l_std_fy;
    rattle_dealloc(ldp(slot_2));
l_std_fy:;
    if ((ld8((slot_2 + 64)) != 1u) ? 1u : (ld64((slot_2 + 104)) == 0ull)) { r_7z = 1u; goto l_capnp_gm; }
    rattle_dealloc(ldp((slot_2 + 88)));
    r_7z = 1u;
l_capnp_gm:;
    memcpy((slot_5 + 6), (slot_3 + 6), 120);
    r_kd = r_7z;
    goto l_join_0b;
l_arm_st:;
    if (ld64((slot_4 + 16)) == 0ull) goto l_std_fy_1;
    rattle_dealloc(ldp(slot_4));
l_std_fy_1:;
    if ((ld8((slot_4 + 64)) != 1u) ? 1u : (ld64((slot_4 + 104)) == 0ull)) { r_kd = 1u; goto l_join_0b; }
    rattle_dealloc(ldp((slot_4 + 88)));
    r_kd = 1u;
l_join_0b:;
    st8(a_1, r_kd);
    st8(away(a_1, 1ull), 0u);
    memcpy(away(a_1, 8ull), (slot_5 + 6), 120);
    return;
}

/* capnp_show::show::message::write_json::<#9d3526b9b0726c59> */
static struct s_i8_i8 capnp_show_show_message_write_json_9d3526b9b0726c59(u8 *a_1, u64 a_2, u64 a_3, u8 *a_4, u64 a_5, u32 a_6, u8 *a_7)
{
    A(8) u8 slot_1[64];
    A(8) u8 slot_2[64];
    A(8) u8 slot_3[88];
    u64 r_52;
    u8 *r_r2;
    u8 *r_rq;
    u64 r_52_1;
    u8 *r_08;
    u64 r_4b;
    u64 r_jh;
    u64 r_sb;
    u8 *r_fx;
    u8 *r_2b;
    u64 r_nm;
    u8 r_e7;
    struct s_i8_i8 r_yu;
    u64 r_52_3;
    u8 *r_08_1;
    u64 r_yi;
    u64 r_xi;
    u64 r_4y;
    u8 *r_fx_1;
    u8 *r_2b_1;
    u64 r_1p;
    u8 r_e7_1;
    struct s_i8_i8 r_yu_1;
    u64 r_52_5;
    u8 *r_08_2;
    u64 r_wv;
    u64 r_9w;
    u64 r_wr;
    u8 *r_fx_2;
    u8 *r_2b_2;
    u64 r_hd;
    u8 r_e7_2;
    struct s_i8_i8 r_yu_2;
    u64 r_52_7;
    u8 *r_08_3;
    u64 r_di;
    u64 r_ju;
    u64 r_5q;
    u8 *r_fx_3;
    u8 *r_2b_3;
    u64 r_pi;
    u8 r_r5;
    u64 r_38;
    u8 *r_lk;
    u64 r_38_1;
    u8 *r_c4_4;
    u32 r_z4;
    u32 r_uq;
    u32 r_z4_1;
    u16 r_xv;
    u16 r_f4;
    u8 *t_6c;
    u8 *t_6c_1;
    u8 *r_rq_1;
    u64 r_52_9;
    u8 *r_08_4;
    u64 r_co;
    u64 r_q5;
    struct s_i8_i8 r_ur;
    u8 r_e7_3;
    struct s_i8_i8 r_2g_1;
    struct s_i8_i8 r_2g;
    u64 switch_xq;
    u8 *switch_mb;
    u8 *r_rq_2;
    u64 r_52_11;
    u8 *r_08_5;
    u64 r_co_1;
    u64 r_q5_1;
    u8 r_e7_4;
    struct s_i8_i8 r_yu_3;
    u8 *r_rq_3;
    u64 r_52_13;
    u8 *r_08_6;
    u64 r_c0;
    u64 r_54;
    u64 r_x4;
    u8 *r_fx_6;
    u8 *r_2b_4;
    u64 r_8b;
    u8 *r_08_7;
    u64 r_w4;
    u64 r_61;
    u8 r_fu;
    u8 r_vh;
    memset(slot_3, 0u, 88);
    r_52 = ld64(away(a_1, 16ull));
    r_r2 = away(a_7, 56ull);
    if (!(u8)(ld8(r_r2) & 1)) goto l_arm_7b;
    r_rq = away(a_7, 8ull);
    r_52_1 = ld64(r_rq);
    if (r_52_1 > 0x3ffffb5ull) { r_e7 = 0u; goto l_arm_n5; }
    r_08 = away(a_7, 16ull);
    u64 r_52_2 = ld64(r_08);
    if (!((r_52_2 - r_52_1) < 11ull)) { r_4b = r_52_2; r_jh = r_52_1; goto l_join_12; }
    u8 r_pt = std_alloc_vec_Vec_grow_amortized_9634afabedddd7ee(a_7, 11ull);
    if (!r_pt) { r_e7 = 1u; goto l_arm_n5; }
    r_4b = ld64(r_08);
    r_jh = ld64(r_rq);
l_join_12:;
    r_sb = (r_jh + 11ull);
    r_fx = ldp(a_7);
    r_2b = away(r_fx, r_jh);
    if (((u64)(uptr)r_2b - (u64)(uptr)((u8 *)g_static_223)) < 11ull) { r_nm = 0ull; goto l_join_8b; }
    mv11(r_2b, ((u8 *)g_static_223));
    goto l_arm_zo;
l_join_8b:;
    st8((r_2b + (i64)(r_nm)), ld8((((u8 *)g_static_223) + (i64)(r_nm))));
    u64 r_c4 = (r_nm + 1ull);
    if (!(r_c4 == 11ull)) { r_nm = r_c4; goto l_join_8b; }
l_arm_zo:;
    stp(a_7, r_fx);
    st64(r_rq, r_sb);
    st64(r_08, r_4b);
    struct s_i8_i8 r_vc = capnp_show_show_text_Text_push_number(a_7, a_2);
    r_yu = r_vc;
    goto l_capnp_v4;
l_arm_n5:;
    struct s_i8_i8 t_fj = (struct s_i8_i8){ 1u, 0u };
    t_fj.f1 = r_e7;
    r_yu = t_fj;
l_capnp_v4:;
    if (!(r_yu.f0 == 0u)) goto l_arm_dn;
    r_52_3 = ld64(r_rq);
    if (r_52_3 > 0x3ffffb4ull) { r_e7_1 = 0u; goto l_arm_n5_1; }
    r_08_1 = away(a_7, 16ull);
    u64 r_52_4 = ld64(r_08_1);
    if (!((r_52_4 - r_52_3) < 12ull)) { r_yi = r_52_4; r_xi = r_52_3; goto l_join_4b; }
    u8 r_42 = std_alloc_vec_Vec_grow_amortized_9634afabedddd7ee(a_7, 12ull);
    if (!r_42) { r_e7_1 = 1u; goto l_arm_n5_1; }
    r_yi = ld64(r_08_1);
    r_xi = ld64(r_rq);
l_join_4b:;
    r_4y = (r_xi + 12ull);
    r_fx_1 = ldp(a_7);
    r_2b_1 = away(r_fx_1, r_xi);
    if (((u64)(uptr)r_2b_1 - (u64)(uptr)((u8 *)g_static_224)) < 12ull) { r_1p = 0ull; goto l_join_kb; }
    mv12(r_2b_1, ((u8 *)g_static_224));
    goto l_arm_zo_1;
l_join_kb:;
    st8((r_2b_1 + (i64)(r_1p)), ld8((((u8 *)g_static_224) + (i64)(r_1p))));
    u64 r_c4_1 = (r_1p + 1ull);
    if (!(r_c4_1 == 12ull)) { r_1p = r_c4_1; goto l_join_kb; }
l_arm_zo_1:;
    stp(a_7, r_fx_1);
    st64(r_rq, r_4y);
    st64(r_08_1, r_yi);
    struct s_i8_i8 r_vc_1 = capnp_show_show_text_Text_push_number(a_7, a_3);
    r_yu_1 = r_vc_1;
    goto l_capnp_v4_1;
l_arm_n5_1:;
    struct s_i8_i8 t_fj_1 = (struct s_i8_i8){ 1u, 0u };
    t_fj_1.f1 = r_e7_1;
    r_yu_1 = t_fj_1;
l_capnp_v4_1:;
    if (r_yu_1.f0 == 0u) goto l_arm_l6;
    goto l_arm_dn_1;
l_arm_dn:;
    r_fu = r_yu.f1;
    r_vh = 1u;
    goto l_return_4x;
l_arm_l6:;
    r_52_5 = ld64(r_rq);
    if (r_52_5 > 0x3ffffb7ull) { r_e7_2 = 0u; goto l_arm_n5_2; }
    r_08_2 = away(a_7, 16ull);
    u64 r_52_6 = ld64(r_08_2);
    if (!((r_52_6 - r_52_5) < 9ull)) { r_wv = r_52_6; r_9w = r_52_5; goto l_join_k6; }
    u8 r_xy = std_alloc_vec_Vec_grow_amortized_9634afabedddd7ee(a_7, 9ull);
    if (!r_xy) { r_e7_2 = 1u; goto l_arm_n5_2; }
    r_wv = ld64(r_08_2);
    r_9w = ld64(r_rq);
l_join_k6:;
    r_wr = (r_9w + 9ull);
    r_fx_2 = ldp(a_7);
    r_2b_2 = away(r_fx_2, r_9w);
    if (((u64)(uptr)r_2b_2 - (u64)(uptr)((u8 *)g_static_225)) < 9ull) { r_hd = 0ull; goto l_join_q1; }
    mv9(r_2b_2, ((u8 *)g_static_225));
    goto l_arm_na;
l_join_q1:;
    st8((r_2b_2 + (i64)(r_hd)), ld8((((u8 *)g_static_225) + (i64)(r_hd))));
    u64 r_c4_2 = (r_hd + 1ull);
    if (!(r_c4_2 == 9ull)) { r_hd = r_c4_2; goto l_join_q1; }
l_arm_na:;
    stp(a_7, r_fx_2);
    st64(r_rq, r_wr);
    st64(r_08_2, r_wv);
    struct s_i8_i8 r_zo = capnp_show_show_text_Text_push_number(a_7, r_52);
    r_yu_2 = r_zo;
    goto l_capnp_v4_2;
l_arm_n5_2:;
    struct s_i8_i8 t_fj_2 = (struct s_i8_i8){ 1u, 0u };
    t_fj_2.f1 = r_e7_2;
    r_yu_2 = t_fj_2;
l_capnp_v4_2:;
    if (r_yu_2.f0 == 0u) goto l_arm_7a;
    goto l_arm_dn_2;
l_arm_dn_1:;
    r_fu = r_yu_1.f1;
    r_vh = 1u;
    goto l_return_4x;
l_arm_7a:;
    r_52_7 = ld64(r_rq);
    if (r_52_7 > 0x3ffffb8ull) { r_fu = 0u; r_vh = 1u; goto l_return_4x; }
    r_08_3 = away(a_7, 16ull);
    u64 r_52_8 = ld64(r_08_3);
    if (!((r_52_8 - r_52_7) < 8ull)) { r_di = r_52_8; r_ju = r_52_7; goto l_join_sq; }
    u8 r_q2 = std_alloc_vec_Vec_grow_amortized_9634afabedddd7ee(a_7, 8ull);
    if (!r_q2) { r_fu = 1u; r_vh = 1u; goto l_return_4x; }
    r_di = ld64(r_08_3);
    r_ju = ld64(r_rq);
l_join_sq:;
    r_5q = (r_ju + 8ull);
    r_fx_3 = ldp(a_7);
    r_2b_3 = away(r_fx_3, r_ju);
    if (((u64)(uptr)r_2b_3 - (u64)(uptr)((u8 *)g_static_226)) < 8ull) { r_pi = 0ull; goto l_join_6x; }
    st64(r_2b_3, 0x3a22746f6f72222cull);
    goto l_core_aw;
l_join_6x:;
    st8((r_2b_3 + (i64)(r_pi)), ld8((((u8 *)g_static_226) + (i64)(r_pi))));
    u64 r_c4_3 = (r_pi + 1ull);
    if (!(r_c4_3 == 8ull)) { r_pi = r_c4_3; goto l_join_6x; }
l_core_aw:;
    stp(a_7, r_fx_3);
    st64(r_rq, r_5q);
    st64(r_08_3, r_di);
    goto l_arm_7b;
l_arm_dn_2:;
    r_fu = r_yu_2.f1;
    r_vh = 1u;
    goto l_return_4x;
l_arm_7b:;
    capnp_messages_messages_path_read_part_9d3526b9b0726c59(slot_3, a_1, a_4, a_5, away(a_7, 32ull));
    r_r5 = ld8((slot_3 + 8));
    r_38 = ld64((slot_3 + 16));
    r_lk = (slot_3 + 24);
    r_38_1 = ld64((slot_3 + 40));
    r_c4_4 = (slot_3 + 48);
    r_z4 = ld32((slot_3 + 64));
    r_uq = ld32((slot_3 + 68));
    r_z4_1 = ld32((slot_3 + 72));
    r_xv = ld16((slot_3 + 80));
    r_f4 = ld16((slot_3 + 82));
    if (!(ld8(slot_3) == 0u)) goto l_switch_82;
    t_6c = (slot_2 + 56);
    st64(t_6c, 0ull);
    if (!(r_r5 == 0u)) goto l_arm_if;
    st64(slot_2, (r_38 & 255ull));
    mv16((slot_2 + 8), r_lk);
    st64((slot_2 + 24), r_38_1);
    mv16((slot_2 + 32), r_c4_4);
    st32((slot_2 + 48), r_z4);
    st32((slot_2 + 52), r_uq);
    st32(t_6c, r_z4_1);
    struct s_i8_i8 r_hf = capnp_show_show_json_write_pointed_value_5ccc1be374b2e488(slot_2, a_6, a_7);
    r_2g = r_hf;
    goto l_capnp_8g;
l_arm_if:;
    t_6c_1 = (slot_1 + 56);
    st64(t_6c_1, 0ull);
    r_rq_1 = away(a_7, 8ull);
    r_52_9 = ld64(r_rq_1);
    if (r_52_9 > 0x3ffffbfull) { r_e7_3 = 0u; goto l_arm_n5_3; }
    r_08_4 = away(a_7, 16ull);
    u64 r_52_10 = ld64(r_08_4);
    if (!(r_52_10 == r_52_9)) { r_co = r_52_10; r_q5 = r_52_9; goto l_join_df; }
    u8 r_av = std_alloc_vec_Vec_grow_amortized_9634afabedddd7ee(a_7, 1ull);
    if (!r_av) { r_e7_3 = 1u; goto l_arm_n5_3; }
    r_co = ld64(r_08_4);
    r_q5 = ld64(r_rq_1);
l_join_df:;
    u8 *r_fx_4 = ldp(a_7);
    st8(away(r_fx_4, r_q5), 123u);
    stp(a_7, r_fx_4);
    st64(r_rq_1, (r_q5 + 1ull));
    st64(r_08_4, r_co);
    if (!(u8)(ld8(r_r2) & 1)) goto l_arm_45;
    r_ur = capnp_show_show_json_Json_write_place(a_7, ((u8 *)g_static_235), 6ull, r_38_1, r_z4);
    if (r_ur.f0 == 0u) goto l_arm_45;
    goto l_arm_ev;
l_arm_n5_3:;
    struct s_i8_i8 t_fj_3 = (struct s_i8_i8){ 1u, 0u };
    t_fj_3.f1 = r_e7_3;
    r_2g_1 = t_fj_3;
    goto l_capnp_8g_1;
l_arm_45:;
    st64(slot_1, (r_38 & 255ull));
    mv16((slot_1 + 8), r_lk);
    st64((slot_1 + 24), r_38_1);
    mv16((slot_1 + 32), r_c4_4);
    st32((slot_1 + 48), r_z4);
    st32((slot_1 + 52), r_uq);
    st32(t_6c_1, r_z4_1);
    struct s_i8_i8 r_ue = capnp_show_show_json_write_sections_5ccc1be374b2e488(slot_1, r_xv, r_f4, a_6, a_7);
    r_2g_1 = r_ue;
    goto l_capnp_8g_1;
l_arm_ev:;
    struct s_i8_i8 t_fj_4 = (struct s_i8_i8){ 1u, 0u };
    t_fj_4.f1 = r_ur.f1;
    r_2g_1 = t_fj_4;
l_capnp_8g_1:;
    r_2g = r_2g_1;
l_capnp_8g:;
    r_yu_3 = r_2g;
    goto l_capnp_v4_3;
l_switch_82:;
    switch_xq = ld64((((u8 *)switch_table_capnp_canon_inputs_report_refusal_51) + (i64)(8 * (u64)r_r5)));
    switch_mb = ldp((((u8 *)switch_table_capnp_canon_inputs_report_refusal_50) + (i64)(8 * (u64)r_r5)));
    r_rq_2 = away(a_7, 8ull);
    r_52_11 = ld64(r_rq_2);
    if (r_52_11 > 0x3ffffbfull) { r_e7_4 = 0u; goto l_arm_n5_4; }
    r_08_5 = away(a_7, 16ull);
    u64 r_52_12 = ld64(r_08_5);
    if (!(r_52_12 == r_52_11)) { r_co_1 = r_52_12; r_q5_1 = r_52_11; goto l_join_df_1; }
    u8 r_av_1 = std_alloc_vec_Vec_grow_amortized_9634afabedddd7ee(a_7, 1ull);
    if (!r_av_1) { r_e7_4 = 1u; goto l_arm_n5_4; }
    r_co_1 = ld64(r_08_5);
    r_q5_1 = ld64(r_rq_2);
l_join_df_1:;
    u8 *r_fx_5 = ldp(a_7);
    st8(away(r_fx_5, r_q5_1), 123u);
    stp(a_7, r_fx_5);
    st64(r_rq_2, (r_q5_1 + 1ull));
    st64(r_08_5, r_co_1);
    struct s_i8_i8 r_ic = capnp_show_show_json_Json_write_refusal(a_7, switch_mb, switch_xq);
    r_yu_3 = r_ic;
    goto l_capnp_v4_3;
l_arm_n5_4:;
    struct s_i8_i8 t_fj_5 = (struct s_i8_i8){ 1u, 0u };
    t_fj_5.f1 = r_e7_4;
    r_yu_3 = t_fj_5;
l_capnp_v4_3:;
    if (!(r_yu_3.f0 == 0u)) goto l_arm_dn_3;
    r_rq_3 = away(a_7, 8ull);
    r_52_13 = ld64(r_rq_3);
    if (!(u8)(ld8(r_r2) & 1)) goto l_join_qd;
    if (r_52_13 > 0x3ffffbeull) { r_fu = 0u; r_vh = 1u; goto l_return_4x; }
    r_08_6 = away(a_7, 16ull);
    u64 r_52_14 = ld64(r_08_6);
    if (!((r_52_14 - r_52_13) < 2ull)) { r_c0 = r_52_14; r_54 = r_52_13; goto l_join_p3; }
    u8 r_y4 = std_alloc_vec_Vec_grow_amortized_9634afabedddd7ee(a_7, 2ull);
    if (!r_y4) { r_fu = 1u; r_vh = 1u; goto l_return_4x; }
    r_c0 = ld64(r_08_6);
    r_54 = ld64(r_rq_3);
l_join_p3:;
    r_x4 = (r_54 + 2ull);
    r_fx_6 = ldp(a_7);
    r_2b_4 = away(r_fx_6, r_54);
    if (((u64)(uptr)r_2b_4 - (u64)(uptr)((u8 *)g_static_257)) < 2ull) { r_8b = 0ull; goto l_join_87; }
    st16(r_2b_4, 2685u);
    goto l_core_x2;
l_join_87:;
    st8((r_2b_4 + (i64)(r_8b)), ld8((((u8 *)g_static_257) + (i64)(r_8b))));
    u64 r_c4_5 = (r_8b + 1ull);
    if (!(r_c4_5 == 2ull)) { r_8b = r_c4_5; goto l_join_87; }
l_core_x2:;
    stp(a_7, r_fx_6);
    st64(r_rq_3, r_x4);
    st64(r_08_6, r_c0);
    r_fu = 0u;
    r_vh = 0u;
    goto l_return_4x;
l_join_qd:;
    if (r_52_13 > 0x3ffffbfull) { r_fu = 0u; r_vh = 1u; goto l_return_4x; }
    r_08_7 = away(a_7, 16ull);
    u64 r_52_15 = ld64(r_08_7);
    if (!(r_52_15 == r_52_13)) { r_w4 = r_52_15; r_61 = r_52_13; goto l_join_e4; }
    u8 r_av_2 = std_alloc_vec_Vec_grow_amortized_9634afabedddd7ee(a_7, 1ull);
    if (!r_av_2) { r_fu = 1u; r_vh = 1u; goto l_return_4x; }
    r_w4 = ld64(r_08_7);
    r_61 = ld64(r_rq_3);
l_join_e4:;
    u8 *r_fx_7 = ldp(a_7);
    st8(away(r_fx_7, r_61), 10u);
    stp(a_7, r_fx_7);
    st64(r_rq_3, (r_61 + 1ull));
    st64(r_08_7, r_w4);
    r_fu = 0u;
    r_vh = 0u;
    goto l_return_4x;
l_arm_dn_3:;
    r_fu = r_yu_3.f1;
    r_vh = 1u;
l_return_4x:;
    struct s_i8_i8 r_3j = (struct s_i8_i8){ 0 };
    r_3j.f0 = r_vh;
    struct s_i8_i8 r_9n = r_3j;
    r_9n.f1 = r_fu;
    return r_9n;
}

/* capnp_show::show::text::Text::push_number */
static struct s_i8_i8 capnp_show_show_text_Text_push_number(u8 *a_1, u64 a_2)
{
    u8 r_ry;
    u8 *r_rq;
    u64 r_52;
    u8 *r_08;
    u64 r_rm;
    u64 r_7j;
    u64 r_79;
    struct s_i8_i8 r_i6;
    u8 r_ry_1;
    u8 *r_rq_1;
    u64 r_52_2;
    u8 *r_08_1;
    u64 r_rm_1;
    u64 r_7j_1;
    u8 r_fu;
    u8 r_vh;
    if (!(a_2 < 10ull)) goto l_join_n3;
    r_ry = (u8)((u8)a_2 | 48u);
    r_rq = away(a_1, 8ull);
    r_52 = ld64(r_rq);
    if (r_52 > 0x3ffffbfull) { r_fu = 0u; r_vh = 1u; goto l_return_4x; }
    r_08 = away(a_1, 16ull);
    u64 r_52_1 = ld64(r_08);
    if (!(r_52_1 == r_52)) { r_rm = r_52_1; r_7j = r_52; goto l_join_r2; }
    u8 r_av = std_alloc_vec_Vec_grow_amortized_9634afabedddd7ee(a_1, 1ull);
    if (!r_av) { r_fu = 1u; r_vh = 1u; goto l_return_4x; }
    r_rm = ld64(r_08);
    r_7j = ld64(r_rq);
l_join_r2:;
    u8 *r_fx = ldp(a_1);
    st8(away(r_fx, r_7j), r_ry);
    stp(a_1, r_fx);
    st64(r_rq, (r_7j + 1ull));
    st64(r_08, r_rm);
    r_fu = 0u;
    r_vh = 0u;
    goto l_return_4x;
l_join_n3:;
    r_79 = (a_2 % 10ull);
    r_i6 = capnp_show_show_text_Text_push_number(a_1, (a_2 / 10ull));
    if (!(r_i6.f0 == 0u)) goto l_arm_dn;
    r_ry_1 = (u8)((u8)r_79 | 48u);
    r_rq_1 = away(a_1, 8ull);
    r_52_2 = ld64(r_rq_1);
    if (r_52_2 > 0x3ffffbfull) { r_fu = 0u; r_vh = 1u; goto l_return_4x; }
    r_08_1 = away(a_1, 16ull);
    u64 r_52_3 = ld64(r_08_1);
    if (!(r_52_3 == r_52_2)) { r_rm_1 = r_52_3; r_7j_1 = r_52_2; goto l_join_r2_1; }
    u8 r_av_1 = std_alloc_vec_Vec_grow_amortized_9634afabedddd7ee(a_1, 1ull);
    if (!r_av_1) { r_fu = 1u; r_vh = 1u; goto l_return_4x; }
    r_rm_1 = ld64(r_08_1);
    r_7j_1 = ld64(r_rq_1);
l_join_r2_1:;
    u8 *r_fx_1 = ldp(a_1);
    st8(away(r_fx_1, r_7j_1), r_ry_1);
    stp(a_1, r_fx_1);
    st64(r_rq_1, (r_7j_1 + 1ull));
    st64(r_08_1, r_rm_1);
    r_fu = 0u;
    r_vh = 0u;
    goto l_return_4x;
l_arm_dn:;
    r_fu = r_i6.f1;
    r_vh = 1u;
l_return_4x:;
    struct s_i8_i8 r_3j = (struct s_i8_i8){ 0 };
    r_3j.f0 = r_vh;
    struct s_i8_i8 r_9n = r_3j;
    r_9n.f1 = r_fu;
    return r_9n;
}

/* capnp_show::show::text::Text::push */
static struct s_i8_i8 capnp_show_show_text_Text_push(u8 *a_1, u8 *a_2, u64 a_3)
{
    u8 *r_rq;
    u64 r_52;
    u8 *r_08;
    u64 r_0p;
    u64 r_fj;
    u64 r_zx;
    u8 *r_fx;
    u8 *r_2b;
    u64 r_31;
    u8 r_fu;
    u8 r_vh;
    r_rq = away(a_1, 8ull);
    r_52 = ld64(r_rq);
    if ((r_52 > 0x3ffffc0ull) ? 1u : ((0x3ffffc0ull - r_52) < a_3)) { r_fu = 0u; r_vh = 1u; goto l_capnp_4x; }
    r_08 = away(a_1, 16ull);
    u64 r_52_1 = ld64(r_08);
    if (!(a_3 > (r_52_1 - r_52))) { r_0p = r_52_1; r_fj = r_52; goto l_join_8y; }
    u8 r_7h = std_alloc_vec_Vec_grow_amortized_9634afabedddd7ee(a_1, a_3);
    if (!r_7h) { r_fu = 1u; r_vh = 1u; goto l_capnp_4x; }
    r_0p = ld64(r_08);
    r_fj = ld64(r_rq);
l_join_8y:;
    r_zx = (r_fj + a_3);
    r_fx = ldp(a_1);
    memset(r_rq, 0u, 16);
    r_2b = away(r_fx, r_fj);
    if (((u64)(uptr)r_2b - (u64)(uptr)a_2) < a_3) { r_31 = 0ull; goto l_join_sz; }
    memmove_or_none(r_2b, a_2, a_3);
    goto l_core_ga;
l_join_sz:;
    st8((r_2b + (i64)(r_31)), ld8((a_2 + (i64)(r_31))));
    u64 r_36 = (r_31 + 1ull);
    if (!(r_36 == a_3)) { r_31 = r_36; goto l_join_sz; }
l_core_ga:;
    stp(a_1, r_fx);
    st64(r_rq, r_zx);
    st64(r_08, r_0p);
    r_fu = 0u;
    r_vh = 0u;
l_capnp_4x:;
    struct s_i8_i8 r_3j = (struct s_i8_i8){ 0 };
    r_3j.f0 = r_vh;
    struct s_i8_i8 r_9n = r_3j;
    r_9n.f1 = r_fu;
    return r_9n;
}

/* capnp_show::show::json::write_pointed_value::<#5ccc1be374b2e488> */
static struct s_i8_i8 capnp_show_show_json_write_pointed_value_5ccc1be374b2e488(u8 *a_1, u32 a_2, u8 *a_3)
{
    A(8) u8 slot_1[1024];
    A(8) u8 slot_2[64];
    A(8) u8 slot_3[64];
    u8 r_dh;
    u64 r_eg;
    u8 *r_rv;
    u64 r_qw;
    u64 r_qw_1;
    u8 *r_rv_1;
    u64 r_qw_2;
    u32 r_5k;
    u32 r_5k_1;
    u8 *r_rq;
    u64 r_52;
    u64 r_24;
    u64 r_gw;
    u8 *r_2b;
    u8 *r_08;
    u64 r_y1;
    u64 r_pz;
    u64 r_5b;
    u8 *r_fx;
    u8 *r_2b_1;
    u64 r_2y;
    u8 *r_08_1;
    u64 r_co;
    u64 r_q5;
    u8 *r_r2;
    struct s_i8_i8 r_aa;
    u64 r_qw_3;
    u64 r_ep;
    u32 t_ri;
    struct s_i8_i8 r_gs;
    u64 r_wn;
    u8 *r_xm;
    u64 t_al;
    u8 t_pa;
    u64 r_lc;
    u64 r_nb;
    u64 r_yz;
    u32 r_nz;
    u32 r_tc;
    u64 r_l8;
    u64 r_3g;
    u64 r_n9;
    u64 r_8d;
    u64 r_ep_1;
    u64 r_y6;
    u64 r_lc_1;
    u8 *r_su;
    u64 r_52_3;
    u64 r_ep_2;
    u8 switch_wl;
    u64 r_ij;
    u64 r_c4_1;
    u64 r_24_1;
    u64 r_gw_1;
    u8 *r_su_1;
    u64 r_52_4;
    u64 r_eh;
    u32 t_c8;
    u32 r_12;
    u32 r_az;
    u32 r_68;
    u64 r_c0;
    u8 *r_su_2;
    u64 r_52_5;
    u32 r_12_1;
    u8 *r_su_3;
    u64 r_52_6;
    u32 r_12_2;
    u8 *r_su_4;
    u64 r_52_7;
    u32 r_12_3;
    u64 r_c6;
    u8 *r_su_5;
    u64 r_52_8;
    u64 r_2g;
    u64 r_ef;
    u32 r_a5;
    u32 r_7f;
    u64 r_e9;
    u64 r_en;
    u8 r_li;
    u32 r_9a;
    u32 r_57;
    u64 r_0n;
    u64 r_vm;
    u64 r_24_2;
    u64 r_a7;
    u8 r_ne;
    u16 t_t8;
    u32 r_5d;
    u16 r_gr;
    u32 r_az_1;
    u64 r_52_9;
    u64 r_29;
    u64 r_el;
    u8 r_bs;
    u8 r_77;
    u8 *t_f6;
    u8 *r_i7;
    u64 a_5j;
    u8 r_qh;
    u64 r_qd;
    u8 *r_xw;
    u64 r_38_1;
    u8 r_ux;
    u64 r_dq;
    u8 r_47;
    u8 r_17;
    u64 r_52_11;
    u64 r_0s;
    u64 r_nq;
    u64 r_xe;
    u8 *r_fx_3;
    u8 *r_2b_2;
    u64 r_u0;
    struct s_i8_i8 r_z6;
    u64 r_52_13;
    u64 r_29_1;
    u64 r_el_1;
    u64 r_52_15;
    u64 r_wv;
    u64 r_9w;
    u64 r_wr;
    u8 *r_fx_5;
    u8 *r_2b_3;
    u64 r_49;
    u8 *r_x9;
    u64 r_tc_1;
    u64 r_wl;
    u8 *r_uz;
    u64 r_eu;
    u64 a_3q;
    u64 r_pt;
    u64 r_yb;
    u8 *r_wy;
    u64 r_2n;
    u64 r_wj;
    u8 *r_aq;
    u64 r_9p;
    u64 r_9e;
    u8 *r_yy;
    u64 r_wc;
    u64 r_8f;
    u64 r_x4;
    u8 *r_2b_4;
    u64 r_nd;
    u8 r_2g_1;
    u8 r_bs_1;
    u8 r_77_1;
    u64 r_ad;
    u8 *r_8o;
    u64 r_52_17;
    u64 r_bu;
    u64 r_tk;
    u64 r_5q_1;
    u8 *r_fx_6;
    u8 *r_2b_5;
    u64 r_il;
    u64 r_gw_2;
    u32 r_ci_1;
    u64 r_52_19;
    u64 r_qd_1;
    u64 r_cr;
    u32 r_st;
    u64 r_24_3;
    u64 r_pv;
    u32 r_c2;
    u64 sink_g9;
    u64 r_cw;
    u64 r_52_21;
    u64 r_08_2;
    u64 r_vr;
    struct s_i8_i8 r_zo_1;
    u64 r_52_23;
    u64 r_08_3;
    u64 r_vr_1;
    u8 r_95;
    u8 r_t2;
    struct s_i8_i8 r_pg;
    u64 r_aq_1;
    u64 r_c0_1;
    u64 r_54;
    u64 r_x4_1;
    u8 *r_fx_10;
    u8 *r_2b_6;
    u64 r_1y;
    u8 r_bs_2;
    u8 r_77_2;
    u32 r_mx;
    struct s_i8_i8 r_kp;
    struct s_i8_i8 r_6q;
    struct s_i8_i8 r_fg;
    struct s_i8_i8 r_a8_1;
    u8 r_g7_1;
    struct s_i8_i8 r_vh_1;
    struct s_i8_i8 r_a8;
    u8 r_g7;
    u64 r_50;
    u64 r_gq;
    u8 *r_vn;
    struct s_i8_i8 r_1f;
    u64 r_52_26;
    u8 r_fu;
    u8 r_vh;
    r_dh = ld8(a_1);
    r_eg = (u64)r_dh;
    r_rv = ldp(away(a_1, 8ull));
    r_qw = ld64(away(a_1, 16ull));
    r_qw_1 = ld64(away(a_1, 24ull));
    r_rv_1 = ldp(away(a_1, 32ull));
    r_qw_2 = ld64(away(a_1, 40ull));
    r_5k = ld32(away(a_1, 48ull));
    r_5k_1 = ld32(away(a_1, 56ull));
    r_rq = away(a_3, 8ull);
    r_52 = ld64(r_rq);
    r_24 = (u64)r_5k;
    r_gw = (u64)(r_qw_2 >> 3ull);
    if (!(r_gw > r_24)) goto l_then_ma;
    r_2b = away(r_rv_1, (u64)(r_24 << 3ull));
    if (!(ld64(r_2b) == 0ull)) goto l_join_qd;
l_then_ma:;
    if (r_52 > 0x3ffffbcull) { r_fu = 0u; r_vh = 1u; goto l_return_4x; }
    r_08 = away(a_3, 16ull);
    u64 r_52_1 = ld64(r_08);
    if (!((r_52_1 - r_52) < 4ull)) { r_y1 = r_52_1; r_pz = r_52; goto l_join_tt; }
    u8 r_t3 = std_alloc_vec_Vec_grow_amortized_9634afabedddd7ee(a_3, 4ull);
    if (!r_t3) { r_fu = 1u; r_vh = 1u; goto l_return_4x; }
    r_y1 = ld64(r_08);
    r_pz = ld64(r_rq);
l_join_tt:;
    r_5b = (r_pz + 4ull);
    r_fx = ldp(a_3);
    r_2b_1 = away(r_fx, r_pz);
    if (((u64)(uptr)r_2b_1 - (u64)(uptr)((u8 *)g_static_227)) < 4ull) { r_2y = 0ull; goto l_join_6j; }
    st32(r_2b_1, 0x6c6c756eu);
    goto l_capnp_aw;
l_join_6j:;
    st8((r_2b_1 + (i64)(r_2y)), ld8((((u8 *)g_static_227) + (i64)(r_2y))));
    u64 r_c4 = (r_2y + 1ull);
    if (!(r_c4 == 4ull)) { r_2y = r_c4; goto l_join_6j; }
l_capnp_aw:;
    stp(a_3, r_fx);
    st64(r_rq, r_5b);
    st64(r_08, r_y1);
    goto l_arm_2q;
l_join_qd:;
    if (r_52 > 0x3ffffbfull) { r_fu = 0u; r_vh = 1u; goto l_return_4x; }
    r_08_1 = away(a_3, 16ull);
    u64 r_52_2 = ld64(r_08_1);
    if (!(r_52_2 == r_52)) { r_co = r_52_2; r_q5 = r_52; goto l_join_df; }
    u8 r_av = std_alloc_vec_Vec_grow_amortized_9634afabedddd7ee(a_3, 1ull);
    if (!r_av) { r_fu = 1u; r_vh = 1u; goto l_return_4x; }
    r_co = ld64(r_08_1);
    r_q5 = ld64(r_rq);
l_join_df:;
    u8 *r_fx_1 = ldp(a_3);
    st8(away(r_fx_1, r_q5), 123u);
    stp(a_3, r_fx_1);
    st64(r_rq, (r_q5 + 1ull));
    st64(r_08_1, r_co);
    r_r2 = away(a_3, 56ull);
    if (!(u8)(ld8(r_r2) & 1)) goto l_capnp_7r;
    r_aa = capnp_show_show_json_Json_write_place(a_3, ((u8 *)g_static_229), 11ull, r_qw_1, r_5k);
    if (!(r_aa.f0 == 0u)) goto l_arm_dn;
    r_qw_3 = ld64(r_2b);
    if ((r_qw_3 & 3ull) == 2ull) goto l_join_m4;
    r_wn = r_qw_3;
    goto l_capnp_ti;
l_arm_dn:;
    r_fu = r_aa.f1;
    r_vh = 1u;
    goto l_return_4x;
l_join_m4:;
    r_ep = (u64)(r_qw_3 >> 32ull);
    t_ri = (u32)((u32)r_qw_3 >> 3u);
    if ((r_qw_3 & 4ull) == 0ull) goto l_else_2t;
    struct s_i8_i8 r_ld = capnp_show_show_json_Json_write_place(a_3, ((u8 *)g_static_230), 14ull, r_ep, t_ri);
    r_gs = r_ld;
    goto l_capnp_il;
l_else_2t:;
    struct s_i8_i8 r_nn = capnp_show_show_json_Json_write_place(a_3, ((u8 *)g_static_231), 7ull, r_ep, t_ri);
    r_gs = r_nn;
l_capnp_il:;
    if (!(r_gs.f0 == 0u)) { r_fu = r_gs.f1; r_vh = 1u; goto l_return_4x; }
l_capnp_7r:;
    r_wn = ld64(r_2b);
l_capnp_ti:;
    r_xm = away(a_3, 32ull);
    if (r_wn == 0ull) { r_a5 = 0u; r_7f = 0u; r_e9 = 0ull; r_en = 0ull; r_li = 0u; r_9a = 0u; r_57 = 0u; r_0n = 0ull; r_vm = 0ull; goto l_arm_4z; }
    t_al = (u64)(uptr)r_rv_1;
    memset(slot_1, 0u, 56);
    t_pa = (r_dh != 0u);
    if (t_pa) goto l_capnp_sm;
    u8 *r_t9 = away(a_3, 48ull);
    st64(r_t9, uadd_sat64(ld64(r_t9), 1ull));
    if ((r_wn & 3ull) == 2ull) goto l_capnp_h9;
    goto l_join_bd;
l_capnp_sm:;
    if (!((r_wn & 3ull) == 2ull)) goto l_join_bd;
    st32((slot_1 + 8), 32u);
    r_2g = ld64((slot_1 + 8));
    goto l_capnp_8g;
l_join_bd:;
    u64 r_m6 = ((u64)(r_wn >> 2ull) & 0x3fffffffull);
    r_lc = ((r_24 + 1ull) + r_m6);
    r_nb = (r_gw & 0xffffffffull);
    if (!(r_m6 < 0x20000000ull)) goto l_else_70;
    if (r_lc > r_nb) { r_2g = 23ull; goto l_capnp_8g; }
    r_yz = r_lc;
    goto l_capnp_i5;
l_else_70:;
    u64 r_3o = (r_lc + 0xffffffffc0000000ull);
    if ((r_lc < 0x40000000ull) ? 1u : (r_3o > r_nb)) { r_2g = 23ull; goto l_capnp_8g; }
    r_yz = r_3o;
l_capnp_i5:;
    r_nz = 0u;
    r_tc = (u32)r_yz;
    r_l8 = r_qw_1;
    r_3g = r_wn;
    r_n9 = r_qw_2;
    r_8d = t_al;
    goto l_arm_s6;
l_capnp_h9:;
    capnp_pointers_source_follow_far_5ccc1be374b2e488(slot_1, r_rv, r_wn, r_xm);
    u64 r_38 = ld64((slot_1 + 8));
    if (ld8(slot_1) == 0u) { r_nz = ld32((slot_1 + 44)); r_tc = ld32((slot_1 + 40)); r_l8 = ld64((slot_1 + 16)); r_3g = r_38; r_n9 = ld64((slot_1 + 32)); r_8d = ld64((slot_1 + 24)); goto l_arm_s6; }
    r_ef = r_38;
    goto l_capnp_68;
l_arm_s6:;
    switch ((u8)((u8)r_3g & 3u)) {
    case 0u: goto l_arm_xn;
    case 1u: goto l_arm_z2;
    case 2u: { r_gq = 25ull; r_vn = ((u8 *)g_static_146); goto l_capnp_ud; }
    case 3u: goto l_capnp_tl;
    default: goto l_default_e1;
    }
l_arm_xn:;
    r_ep_1 = (u64)(r_3g >> 32ull);
    r_y6 = (u64)(r_3g >> 48ull);
    if ((i32)r_5k_1 < (i32)1u) { r_gq = 40ull; r_vn = ((u8 *)g_static_159); goto l_capnp_ud; }
    r_lc_1 = ((r_ep_1 & 65535ull) + r_y6);
    if (((u64)(r_n9 >> 3ull) & 0xffffffffull) < (r_lc_1 + (u64)r_tc)) { r_gq = 33ull; r_vn = ((u8 *)g_static_156); goto l_capnp_ud; }
    if (t_pa) goto l_arm_mf;
    if (!(ld8(r_xm) == 1u)) goto l_arm_mf;
    r_su = away(a_3, 40ull);
    r_52_3 = ld64(r_su);
    if (r_52_3 < r_lc_1) { r_gq = 17ull; r_vn = ((u8 *)g_static_163); goto l_capnp_ud; }
    st64(r_xm, 1ull);
    st64(r_su, (r_52_3 - r_lc_1));
l_arm_mf:;
    r_a5 = 0u;
    r_7f = ((u32)((u32)r_y6 << 16u) | ((u32)r_ep_1 & 65535u));
    r_e9 = r_l8;
    r_en = 0ull;
    r_li = 2u;
    r_9a = r_nz;
    r_57 = r_tc;
    r_0n = r_n9;
    r_vm = r_8d;
    goto l_arm_4z;
l_arm_z2:;
    r_ep_2 = (u64)(r_3g >> 32ull);
    switch_wl = (u8)((u8)r_ep_2 & 7u);
    r_ij = (u64)(r_3g >> 35ull);
    switch (switch_wl) {
    case 7u: goto l_arm_xd;
    case 6u: goto l_arm_te;
    case 0u: goto l_arm_te_1;
    case 1u: goto l_arm_te_2;
    case 2u: goto l_arm_te_2;
    case 3u: goto l_arm_te_2;
    case 4u: goto l_arm_te_2;
    case 5u: goto l_arm_te_2;
    default: goto l_default_e1;
    }
l_arm_xd:;
    if ((i32)r_5k_1 < (i32)1u) { r_gq = 40ull; r_vn = ((u8 *)g_static_159); goto l_capnp_ud; }
    r_c4_1 = (r_ij + 1ull);
    r_24_1 = (u64)r_tc;
    r_gw_1 = (u64)(r_n9 >> 3ull);
    if ((r_gw_1 & 0xffffffffull) < (r_c4_1 + r_24_1)) { r_gq = 33ull; r_vn = ((u8 *)g_static_156); goto l_capnp_ud; }
    if (t_pa) goto l_arm_ga;
    if (!(ld8(r_xm) == 1u)) goto l_arm_ga;
    r_su_1 = away(a_3, 40ull);
    r_52_4 = ld64(r_su_1);
    if (!(r_52_4 > r_ij)) { r_gq = 17ull; r_vn = ((u8 *)g_static_163); goto l_capnp_ud; }
    st64(r_xm, 1ull);
    st64(r_su_1, (r_52_4 - r_c4_1));
l_arm_ga:;
    if (!(r_gw_1 > r_24_1)) { r_eh = 0ull; goto l_join_qm; }
    u64 r_qw_4 = ld64(away(((u8 *)(uptr)r_8d), (u64)(r_24_1 << 3ull)));
    if ((r_qw_4 & 3ull) == 0ull) { r_eh = r_qw_4; goto l_join_qm; }
    r_gq = 50ull;
    r_vn = ((u8 *)g_static_144);
    goto l_capnp_ud;
l_join_qm:;
    t_c8 = (u32)((u32)r_eh >> 2u);
    r_12 = (u32)(u64)(r_eh >> 48ull);
    r_az = ((u32)(u64)(r_eh >> 32ull) & 65535u);
    r_68 = (r_az + r_12);
    r_c0 = (u64)t_c8;
    if (r_ij < ((u64)r_68 * r_c0)) { r_gq = 47ull; r_vn = ((u8 *)g_static_143); goto l_capnp_ud; }
    if ((u8)((u8)t_pa | (u8)(r_68 != 0u))) goto l_arm_8v;
    if (!(ld8(r_xm) == 1u)) goto l_arm_8v;
    r_su_2 = away(a_3, 40ull);
    r_52_5 = ld64(r_su_2);
    if (r_52_5 < r_c0) { r_gq = 17ull; r_vn = ((u8 *)g_static_163); goto l_capnp_ud; }
    st64(r_xm, 1ull);
    st64(r_su_2, (r_52_5 - r_c0));
l_arm_8v:;
    r_a5 = t_c8;
    r_7f = ((u32)(r_12 << 16u) | r_az);
    r_e9 = r_l8;
    r_en = 0ull;
    r_li = 5u;
    r_9a = 0u;
    r_57 = (r_tc + 1u);
    r_0n = r_n9;
    r_vm = r_8d;
    goto l_arm_4z;
l_arm_te:;
    r_12_1 = (u32)r_ij;
    if ((i32)r_5k_1 < (i32)1u) { r_gq = 40ull; r_vn = ((u8 *)g_static_159); goto l_capnp_ud; }
    if (((u64)(r_n9 >> 3ull) & 0xffffffffull) < (r_ij + (u64)r_tc)) { r_gq = 33ull; r_vn = ((u8 *)g_static_156); goto l_capnp_ud; }
    if (t_pa) { r_a5 = 0u; r_7f = r_12_1; r_e9 = r_l8; r_en = 0ull; r_li = 4u; r_9a = r_nz; r_57 = r_tc; r_0n = r_n9; r_vm = r_8d; goto l_arm_4z; }
    if (!(ld8(r_xm) == 1u)) { r_a5 = 0u; r_7f = r_12_1; r_e9 = r_l8; r_en = 0ull; r_li = 4u; r_9a = r_nz; r_57 = r_tc; r_0n = r_n9; r_vm = r_8d; goto l_arm_4z; }
    r_su_3 = away(a_3, 40ull);
    r_52_6 = ld64(r_su_3);
    if (r_52_6 < r_ij) { r_gq = 17ull; r_vn = ((u8 *)g_static_163); goto l_capnp_ud; }
    st64(r_xm, 1ull);
    st64(r_su_3, (r_52_6 - r_ij));
    r_a5 = 0u;
    r_7f = r_12_1;
    r_e9 = r_l8;
    r_en = 0ull;
    r_li = 4u;
    r_9a = r_nz;
    r_57 = r_tc;
    r_0n = r_n9;
    r_vm = r_8d;
    goto l_arm_4z;
l_arm_te_1:;
    r_12_2 = (u32)r_ij;
    if ((i32)r_5k_1 < (i32)1u) { r_gq = 40ull; r_vn = ((u8 *)g_static_159); goto l_capnp_ud; }
    if (((u64)(r_n9 >> 3ull) & 0xffffffffull) < (u64)r_tc) { r_gq = 33ull; r_vn = ((u8 *)g_static_156); goto l_capnp_ud; }
    if (t_pa) { r_a5 = r_12_2; r_7f = 0u; r_e9 = r_l8; r_en = 0ull; r_li = 3u; r_9a = r_nz; r_57 = r_tc; r_0n = r_n9; r_vm = r_8d; goto l_arm_4z; }
    if (!(ld8(r_xm) == 1u)) { r_a5 = r_12_2; r_7f = 0u; r_e9 = r_l8; r_en = 0ull; r_li = 3u; r_9a = r_nz; r_57 = r_tc; r_0n = r_n9; r_vm = r_8d; goto l_arm_4z; }
    st64(r_xm, 1ull);
    r_su_4 = away(a_3, 40ull);
    r_52_7 = ld64(r_su_4);
    if (r_52_7 < r_ij) { r_gq = 17ull; r_vn = ((u8 *)g_static_163); goto l_capnp_ud; }
    st64(r_su_4, (r_52_7 - r_ij));
    r_a5 = r_12_2;
    r_7f = 0u;
    r_e9 = r_l8;
    r_en = 0ull;
    r_li = 3u;
    r_9a = r_nz;
    r_57 = r_tc;
    r_0n = r_n9;
    r_vm = r_8d;
    goto l_arm_4z;
l_arm_te_2:;
    r_12_3 = (u32)r_ij;
    if ((i32)r_5k_1 < (i32)1u) { r_gq = 40ull; r_vn = ((u8 *)g_static_159); goto l_capnp_ud; }
    r_c6 = (u64)(((ld64(away(away(((u8 *)switch_table_typed_conforming_conforms_check_object_5c_e20a29a0), 8 * (r_ep_2 & 7ull)), 0xfffffffffffffff8ull)) * r_ij) + 63ull) >> 6ull);
    if (((u64)(r_n9 >> 3ull) & 0xffffffffull) < (r_c6 + (u64)r_tc)) { r_gq = 33ull; r_vn = ((u8 *)g_static_156); goto l_capnp_ud; }
    if (t_pa) goto l_arm_eq;
    if (!(ld8(r_xm) == 1u)) goto l_arm_eq;
    r_su_5 = away(a_3, 40ull);
    r_52_8 = ld64(r_su_5);
    if (r_52_8 < r_c6) { r_gq = 17ull; r_vn = ((u8 *)g_static_163); goto l_capnp_ud; }
    st64(r_xm, 1ull);
    st64(r_su_5, (r_52_8 - r_c6));
l_arm_eq:;
    r_a5 = r_12_3;
    r_7f = (u32)switch_wl;
    r_e9 = r_l8;
    r_en = 0ull;
    r_li = 3u;
    r_9a = r_nz;
    r_57 = r_tc;
    r_0n = r_n9;
    r_vm = r_8d;
    goto l_arm_4z;
l_default_e1:;
    UNREACHABLE();
l_capnp_8g:;
    r_ef = r_2g;
l_capnp_68:;
    r_50 = (r_ef & 255ull);
    goto l_switch_44;
l_capnp_tl:;
    if ((r_3g & 0xffffffffull) == 3ull) { r_a5 = 0u; r_7f = 0u; r_e9 = 0ull; r_en = (u64)(r_3g >> 32ull); r_li = 1u; r_9a = 0u; r_57 = 0u; r_0n = 0ull; r_vm = 0ull; goto l_arm_4z; }
    r_50 = 34ull;
    goto l_switch_44;
l_arm_4z:;
    r_24_2 = (u64)r_57;
    r_a7 = ((u64)((u64)r_9a << 32ull) | r_24_2);
    r_ne = (u8)r_7f;
    t_t8 = (u16)r_7f;
    r_5d = (u32)(r_7f >> 16u);
    r_gr = (u16)r_5d;
    memset(slot_2, 0u, 64);
    memset(slot_3, 0u, 64);
    r_az_1 = (r_7f & 65535u);
    if (!((u8)(r_li + 254u) < 4u)) goto l_arm_sf;
    if (!(u8)(ld8(r_r2) & 1)) goto l_arm_sf;
    struct s_i8_i8 r_ur = capnp_show_show_json_Json_write_place(a_3, ((u8 *)g_static_235), 6ull, r_e9, r_57);
    if (!(r_ur.f0 == 0u)) { r_a8 = r_ur; r_g7 = 1u; goto l_capnp_mf; }
l_arm_sf:;
    switch (r_li) {
    case 0u: goto l_arm_ik;
    case 1u: goto l_arm_ss;
    case 3u: goto l_arm_s0;
    case 2u: goto l_arm_0q;
    case 4u: goto l_arm_0q_1;
    case 5u: goto l_arm_pg;
    default: goto l_noarm_e1;
    }
l_arm_ik:;
    r_52_9 = ld64(r_rq);
    if (r_52_9 > 0x3ffffbfull) { r_bs = 0u; r_77 = 1u; goto l_capnp_8i; }
    u64 r_52_10 = ld64(r_08_1);
    if (!(r_52_10 == r_52_9)) { r_29 = r_52_10; r_el = r_52_9; goto l_join_n2; }
    u8 r_av_1 = std_alloc_vec_Vec_grow_amortized_9634afabedddd7ee(a_3, 1ull);
    if (!r_av_1) { r_bs = 1u; r_77 = 1u; goto l_capnp_8i; }
    r_29 = ld64(r_08_1);
    r_el = ld64(r_rq);
l_join_n2:;
    u8 *r_fx_2 = ldp(a_3);
    st8(away(r_fx_2, r_el), 125u);
    stp(a_3, r_fx_2);
    st64(r_rq, (r_el + 1ull));
    st64(r_08_1, r_29);
    r_bs = 0u;
    r_77 = 0u;
l_capnp_8i:;
    struct s_i8_i8 r_3j = (struct s_i8_i8){ 0 };
    r_3j.f0 = r_77;
    struct s_i8_i8 r_9n = r_3j;
    r_9n.f1 = r_bs;
    r_vh_1 = r_9n;
    goto l_join_zt;
l_arm_ss:;
    struct s_i8_i8 r_ci = capnp_show_show_text_Text_push_last_number(a_3, ((u8 *)g_static_236), 13ull, r_en);
    r_vh_1 = r_ci;
    goto l_join_zt;
l_arm_s0:;
    t_f6 = ((u8 *)(uptr)r_vm);
    switch (r_ne) {
    case 0u: goto l_arm_qq;
    case 2u: goto l_arm_u8;
    case 1u: { r_ad = 8ull; r_8o = ((u8 *)g_static_243); goto l_capnp_6t; }
    case 3u: goto l_arm_h9;
    case 4u: goto l_arm_h9_1;
    case 7u: goto l_arm_h9_2;
    case 5u: goto l_arm_h9_2;
    case 6u: goto l_arm_h9_2;
    default: goto l_noarm_e1_1;
    }
l_arm_qq:;
    struct s_i8_i8 r_9y = capnp_show_show_text_Text_push_last_number(a_3, ((u8 *)g_static_237), 7ull, (u64)r_a5);
    r_vh_1 = r_9y;
    goto l_join_zt;
l_arm_u8:;
    u64 a_f1 = umin64(r_0n, (u64)(r_24_2 << 3ull));
    r_i7 = away(t_f6, a_f1);
    a_5j = umin64((r_0n - a_f1), (u64)r_a5);
    r_qh = (a_5j == 0ull);
    if (r_qh) goto l_arm_s4;
    r_qd = (a_5j + 0xffffffffffffffffull);
    if (!(ld8((r_i7 + (i64)(r_qd))) == 0u)) goto l_arm_s4;
    memset(slot_1, 0u, 24);
    core_str_utf8_from_utf8(slot_1, r_i7, r_qd);
    r_xw = ldp((slot_1 + 8));
    r_38_1 = ld64((slot_1 + 16));
    if (!(ld8(slot_1) == 0u)) goto l_arm_s4;
    if (r_qd == 0ull) goto l_arm_m3;
    r_ux = 0u;
    r_dq = 0ull;
    goto l_join_1e;
l_loop_2r:;
    u64 r_36 = (r_dq + 1ull);
    if (r_36 == r_qd) goto l_arm_m3;
    r_ux = r_47;
    r_dq = r_36;
l_join_1e:;
    r_47 = ld8(away(r_i7, r_dq));
    if (!(r_47 < 32u)) { r_17 = 0u; goto l_capnp_fz; }
    r_17 = (u8)((u8)(r_47 != 13u) & (u8)((u8)(r_47 + 245u) < 254u));
l_capnp_fz:;
    if ((u8)((u8)(u8)((u8)(r_ux == 194u) & (u8)(r_47 < 160u)) | (u8)(u8)((u8)(r_47 == 127u) | (u8)r_17))) goto l_arm_s4;
    goto l_loop_2r;
l_arm_m3:;
    r_52_11 = ld64(r_rq);
    if (r_52_11 > 0x3ffffb9ull) { r_bs_1 = 1u; r_77_1 = 0u; goto l_capnp_8i_1; }
    u64 r_52_12 = ld64(r_08_1);
    if (!((r_52_12 - r_52_11) < 7ull)) { r_0s = r_52_12; r_nq = r_52_11; goto l_join_me; }
    u8 r_f5 = std_alloc_vec_Vec_grow_amortized_9634afabedddd7ee(a_3, 7ull);
    if (!r_f5) { r_bs_1 = 1u; r_77_1 = 1u; goto l_capnp_8i_1; }
    r_0s = ld64(r_08_1);
    r_nq = ld64(r_rq);
l_join_me:;
    r_xe = (r_nq + 7ull);
    r_fx_3 = ldp(a_3);
    r_2b_2 = away(r_fx_3, r_nq);
    if (((u64)(uptr)r_2b_2 - (u64)(uptr)((u8 *)g_static_238)) < 7ull) { r_u0 = 0ull; goto l_join_dc; }
    mv7(r_2b_2, ((u8 *)g_static_238));
    goto l_arm_61;
l_join_dc:;
    st8((r_2b_2 + (i64)(r_u0)), ld8((((u8 *)g_static_238) + (i64)(r_u0))));
    u64 r_c4_2 = (r_u0 + 1ull);
    if (!(r_c4_2 == 7ull)) { r_u0 = r_c4_2; goto l_join_dc; }
l_arm_61:;
    stp(a_3, r_fx_3);
    st64(r_rq, r_xe);
    st64(r_08_1, r_0s);
    r_z6 = capnp_show_show_text_Text_push_quoted(a_3, r_xw, r_38_1);
    if (!(r_z6.f0 == 0u)) goto l_arm_21;
    r_52_13 = ld64(r_rq);
    if (r_52_13 > 0x3ffffbfull) { r_bs_1 = 1u; r_77_1 = 0u; goto l_capnp_8i_1; }
    u64 r_52_14 = ld64(r_08_1);
    if (!(r_52_14 == r_52_13)) { r_29_1 = r_52_14; r_el_1 = r_52_13; goto l_join_n2_1; }
    u8 r_av_2 = std_alloc_vec_Vec_grow_amortized_9634afabedddd7ee(a_3, 1ull);
    if (!r_av_2) { r_bs_1 = 1u; r_77_1 = 1u; goto l_capnp_8i_1; }
    r_29_1 = ld64(r_08_1);
    r_el_1 = ld64(r_rq);
l_join_n2_1:;
    u8 *r_fx_4 = ldp(a_3);
    st8(away(r_fx_4, r_el_1), 125u);
    stp(a_3, r_fx_4);
    st64(r_rq, (r_el_1 + 1ull));
    st64(r_08_1, r_29_1);
    r_bs_1 = 0u;
    r_77_1 = 0u;
    goto l_capnp_8i_1;
l_arm_21:;
    r_bs_1 = 1u;
    r_77_1 = r_z6.f1;
    goto l_capnp_8i_1;
l_arm_s4:;
    r_52_15 = ld64(r_rq);
    if (r_52_15 > 0x3ffffb7ull) { r_bs_1 = 1u; r_77_1 = 0u; goto l_capnp_8i_1; }
    u64 r_52_16 = ld64(r_08_1);
    if (!((r_52_16 - r_52_15) < 9ull)) { r_wv = r_52_16; r_9w = r_52_15; goto l_join_k6; }
    u8 r_xy = std_alloc_vec_Vec_grow_amortized_9634afabedddd7ee(a_3, 9ull);
    if (!r_xy) { r_bs_1 = 1u; r_77_1 = 1u; goto l_capnp_8i_1; }
    r_wv = ld64(r_08_1);
    r_9w = ld64(r_rq);
l_join_k6:;
    r_wr = (r_9w + 9ull);
    r_fx_5 = ldp(a_3);
    r_2b_3 = away(r_fx_5, r_9w);
    if (((u64)(uptr)r_2b_3 - (u64)(uptr)((u8 *)g_static_240)) < 9ull) { r_49 = 0ull; goto l_join_00; }
    mv9(r_2b_3, ((u8 *)g_static_240));
    goto l_arm_um;
l_join_00:;
    st8((r_2b_3 + (i64)(r_49)), ld8((((u8 *)g_static_240) + (i64)(r_49))));
    u64 r_c4_3 = (r_49 + 1ull);
    if (!(r_c4_3 == 9ull)) { r_49 = r_c4_3; goto l_join_00; }
l_arm_um:;
    stp(a_3, r_fx_5);
    st64(r_rq, r_wr);
    st64(r_08_1, r_wv);
    if (r_qh) { r_aq = r_fx_5; r_9p = r_wv; r_9e = r_wr; goto l_arm_06; }
    r_x9 = r_fx_5;
    r_tc_1 = r_wv;
    r_wl = r_wr;
    r_uz = r_i7;
    r_eu = a_5j;
l_join_kl:;
    a_3q = umin64(r_eu, 512ull);
    memset(slot_1, 0u, 1024);
    r_pt = 0ull;
l_join_jf:;
    u8 r_47_1 = ld8((r_uz + (i64)(r_pt)));
    u8 *r_a7_1 = (slot_1 + (i64)((u64)(r_pt << 1ull)));
    st8(r_a7_1, ld8((((u8 *)g_static_197) + (i64)((u64)(u8)((u32)r_47_1 >> 4u)))));
    st8((r_a7_1 + 1), ld8((((u8 *)g_static_197) + (i64)((u64)(u8)(r_47_1 & 15u)))));
    u64 r_c4_4 = (r_pt + 1ull);
    if (!(r_c4_4 == a_3q)) { r_pt = r_c4_4; goto l_join_jf; }
    r_yb = (u64)(a_3q << 1ull);
    if ((r_wl > 0x3ffffc0ull) ? 1u : ((0x3ffffc0ull - r_wl) < r_yb)) { r_2g_1 = 0u; goto l_arm_8g; }
    if (!(r_yb > (r_tc_1 - r_wl))) { r_wy = r_x9; r_2n = r_tc_1; r_wj = r_wl; goto l_arm_nw; }
    u8 r_c4_5 = std_alloc_vec_Vec_grow_amortized_9634afabedddd7ee(a_3, r_yb);
    if (!r_c4_5) { r_2g_1 = 1u; goto l_arm_8g; }
    r_wy = ldp(a_3);
    r_2n = ld64(r_08_1);
    r_wj = ld64(r_rq);
l_arm_nw:;
    u64 r_5q = (r_wj + r_yb);
    memcpy_or_none(away(r_wy, r_wj), slot_1, r_yb);
    stp(a_3, r_wy);
    st64(r_rq, r_5q);
    st64(r_08_1, r_2n);
    u64 r_nr = (r_eu - a_3q);
    if (r_nr == 0ull) { r_aq = r_wy; r_9p = r_2n; r_9e = r_5q; goto l_arm_06; }
    u8 *r_1 = r_wy;
    u64 r_2 = r_2n;
    u64 r_3 = r_5q;
    u8 *r_4 = away(r_uz, a_3q);
    u64 r_5 = r_nr;
    r_x9 = r_1;
    r_tc_1 = r_2;
    r_wl = r_3;
    r_uz = r_4;
    r_eu = r_5;
    goto l_join_kl;
l_arm_06:;
    if (r_9e > 0x3ffffbeull) { r_bs_1 = 1u; r_77_1 = 0u; goto l_capnp_8i_1; }
    if (!((r_9p - r_9e) < 2ull)) { r_yy = r_aq; r_wc = r_9p; r_8f = r_9e; goto l_join_aq; }
    u8 r_y4 = std_alloc_vec_Vec_grow_amortized_9634afabedddd7ee(a_3, 2ull);
    if (!r_y4) { r_bs_1 = 1u; r_77_1 = 1u; goto l_capnp_8i_1; }
    r_yy = ldp(a_3);
    r_wc = ld64(r_08_1);
    r_8f = ld64(r_rq);
l_join_aq:;
    r_x4 = (r_8f + 2ull);
    r_2b_4 = away(r_yy, r_8f);
    if (((u64)(uptr)r_2b_4 - (u64)(uptr)((u8 *)g_static_241)) < 2ull) { r_nd = 0ull; goto l_join_h4; }
    st16(r_2b_4, 32034u);
    goto l_core_ga;
l_join_h4:;
    st8((r_2b_4 + (i64)(r_nd)), ld8((((u8 *)g_static_241) + (i64)(r_nd))));
    u64 r_c4_6 = (r_nd + 1ull);
    if (!(r_c4_6 == 2ull)) { r_nd = r_c4_6; goto l_join_h4; }
l_core_ga:;
    stp(a_3, r_yy);
    st64(r_rq, r_x4);
    st64(r_08_1, r_wc);
    r_bs_1 = 0u;
    r_77_1 = 0u;
    goto l_capnp_8i_1;
l_arm_8g:;
    r_bs_1 = 1u;
    r_77_1 = r_2g_1;
l_capnp_8i_1:;
    struct s_i8_i8 r_3j_1 = (struct s_i8_i8){ 0 };
    r_3j_1.f0 = r_bs_1;
    struct s_i8_i8 r_9n_1 = r_3j_1;
    r_9n_1.f1 = r_77_1;
    r_vh_1 = r_9n_1;
    goto l_join_zt;
l_arm_h9:;
    r_ad = 7ull;
    r_8o = ((u8 *)g_static_244);
    goto l_capnp_6t;
l_arm_h9_1:;
    r_ad = 7ull;
    r_8o = ((u8 *)g_static_245);
    goto l_capnp_6t;
l_arm_h9_2:;
    r_ad = 7ull;
    r_8o = ((u8 *)g_static_246);
l_capnp_6t:;
    r_52_17 = ld64(r_rq);
    if ((r_52_17 > 0x3ffffc0ull) ? 1u : ((0x3ffffc0ull - r_52_17) < r_ad)) { r_bs_2 = 0u; r_77_2 = 1u; goto l_capnp_8i_2; }
    u64 r_52_18 = ld64(r_08_1);
    if (!(r_ad > (r_52_18 - r_52_17))) { r_bu = r_52_18; r_tk = r_52_17; goto l_join_pq; }
    u8 r_c4_7 = std_alloc_vec_Vec_grow_amortized_9634afabedddd7ee(a_3, r_ad);
    if (!r_c4_7) { r_bs_2 = 1u; r_77_2 = 1u; goto l_capnp_8i_2; }
    r_bu = ld64(r_08_1);
    r_tk = ld64(r_rq);
l_join_pq:;
    r_5q_1 = (r_tk + r_ad);
    r_fx_6 = ldp(a_3);
    r_2b_5 = away(r_fx_6, r_tk);
    if (((u64)(uptr)r_2b_5 - (u64)(uptr)r_8o) < r_ad) { r_il = 0ull; goto l_join_fh; }
    memcpy_or_none(r_2b_5, r_8o, r_ad);
    goto l_arm_dd;
l_join_fh:;
    st8((r_2b_5 + (i64)(r_il)), ld8((r_8o + (i64)(r_il))));
    u64 r_c4_8 = (r_il + 1ull);
    if (!(r_c4_8 == r_ad)) { r_il = r_c4_8; goto l_join_fh; }
l_arm_dd:;
    stp(a_3, r_fx_6);
    st64(r_rq, r_5q_1);
    st64(r_08_1, r_bu);
    if (r_a5 == 0u) { r_aq_1 = r_5q_1; goto l_arm_06_1; }
    r_gw_2 = (u64)(r_0n >> 3ull);
    r_ci_1 = 0u;
    goto l_join_fo;
l_loop_aw:;
    u32 r_ff = (r_ci_1 + 1u);
    if (r_ff == r_a5) goto l_arm_n1;
    r_ci_1 = r_ff;
l_join_fo:;
    if (r_ci_1 == 0u) goto l_arm_0h;
    r_52_19 = ld64(r_rq);
    if (r_52_19 > 0x3ffffbfull) { r_bs_2 = 0u; r_77_2 = 1u; goto l_capnp_8i_2; }
    u64 r_52_20 = ld64(r_08_1);
    if (!(r_52_20 == r_52_19)) { r_qd_1 = r_52_20; r_cr = r_52_19; goto l_join_tk; }
    u8 r_av_3 = std_alloc_vec_Vec_grow_amortized_9634afabedddd7ee(a_3, 1ull);
    if (!r_av_3) { r_bs_2 = 1u; r_77_2 = 1u; goto l_capnp_8i_2; }
    r_qd_1 = ld64(r_08_1);
    r_cr = ld64(r_rq);
l_join_tk:;
    u8 *r_fx_7 = ldp(a_3);
    st8(away(r_fx_7, r_cr), 44u);
    stp(a_3, r_fx_7);
    st64(r_rq, (r_cr + 1ull));
    st64(r_08_1, r_qd_1);
l_arm_0h:;
    switch (r_ne) {
    case 1u: goto l_arm_t6;
    case 2u: goto l_arm_br;
    case 3u: goto l_arm_tw;
    case 4u: goto l_arm_fo;
    case 0u: { r_st = r_ci_1; goto l_capnp_k6; }
    case 5u: { r_st = r_ci_1; goto l_capnp_k6; }
    case 6u: { r_st = r_ci_1; goto l_capnp_k6; }
    case 7u: { r_st = r_ci_1; goto l_capnp_k6; }
    default: goto l_noarm_e1_2;
    }
l_arm_t6:;
    r_st = (u32)(r_ci_1 >> 6u);
    goto l_capnp_k6;
l_arm_br:;
    r_st = (u32)(r_ci_1 >> 3u);
    goto l_capnp_k6;
l_arm_tw:;
    r_st = (u32)(r_ci_1 >> 2u);
    goto l_capnp_k6;
l_arm_fo:;
    r_st = (u32)(r_ci_1 >> 1u);
    goto l_capnp_k6;
l_noarm_e1_2:;
    UNREACHABLE();
l_capnp_k6:;
    r_24_3 = (u64)uadd_sat32(r_st, r_57);
    if (!(r_gw_2 > r_24_3)) { r_pv = 0ull; goto l_capnp_pd; }
    r_pv = ld64(away(t_f6, (u64)(r_24_3 << 3ull)));
l_capnp_pd:;
    switch (r_ne) {
    case 1u: goto l_arm_34;
    case 2u: goto l_capnp_r9;
    case 3u: goto l_arm_ij;
    case 4u: goto l_arm_gu;
    case 0u: { r_cw = r_pv; goto l_arm_ik_1; }
    case 5u: { r_cw = r_pv; goto l_arm_ik_1; }
    case 6u: { r_cw = r_pv; goto l_arm_ik_1; }
    case 7u: { r_cw = r_pv; goto l_arm_ik_1; }
    default: goto l_noarm_e1_3;
    }
l_arm_34:;
    r_c2 = (r_ci_1 & 63u);
    sink_g9 = 1ull;
    goto l_arm_aj;
l_capnp_r9:;
    r_cw = ((u64)(r_pv >> ((u64)((u32)(r_ci_1 << 3u) & 56u) & 63u)) & 255ull);
    goto l_arm_ik_1;
l_arm_ij:;
    r_c2 = ((u32)(r_ci_1 << 4u) & 48u);
    sink_g9 = 65535ull;
    goto l_arm_aj;
l_arm_gu:;
    r_c2 = ((u32)(r_ci_1 << 5u) & 32u);
    sink_g9 = 0xffffffffull;
    goto l_arm_aj;
l_noarm_e1_3:;
    UNREACHABLE();
l_arm_aj:;
    struct s_i8_i8 r_zo = capnp_show_show_text_Text_push_number(a_3, ((u64)(r_pv >> ((u64)r_c2 & 63u)) & sink_g9));
    r_pg = r_zo;
    goto l_capnp_6i;
l_arm_ik_1:;
    r_52_21 = ld64(r_rq);
    if (r_52_21 > 0x3ffffbfull) { r_95 = 0u; r_t2 = 1u; goto l_capnp_5p; }
    u64 r_52_22 = ld64(r_08_1);
    if (!(r_52_22 == r_52_21)) { r_08_2 = r_52_22; r_vr = r_52_21; goto l_join_wq; }
    u8 r_av_4 = std_alloc_vec_Vec_grow_amortized_9634afabedddd7ee(a_3, 1ull);
    if (!r_av_4) { r_95 = 1u; r_t2 = 1u; goto l_capnp_5p; }
    r_08_2 = ld64(r_08_1);
    r_vr = ld64(r_rq);
l_join_wq:;
    u8 *r_fx_8 = ldp(a_3);
    st8(away(r_fx_8, r_vr), 34u);
    stp(a_3, r_fx_8);
    st64(r_rq, (r_vr + 1ull));
    st64(r_08_1, r_08_2);
    r_zo_1 = capnp_show_show_text_Text_push_number(a_3, r_cw);
    if (!(r_zo_1.f0 == 0u)) goto l_arm_21_1;
    r_52_23 = ld64(r_rq);
    if (r_52_23 > 0x3ffffbfull) { r_95 = 0u; r_t2 = 1u; goto l_capnp_5p; }
    u64 r_52_24 = ld64(r_08_1);
    if (!(r_52_24 == r_52_23)) { r_08_3 = r_52_24; r_vr_1 = r_52_23; goto l_join_wq_1; }
    u8 r_av_5 = std_alloc_vec_Vec_grow_amortized_9634afabedddd7ee(a_3, 1ull);
    if (!r_av_5) { r_95 = 1u; r_t2 = 1u; goto l_capnp_5p; }
    r_08_3 = ld64(r_08_1);
    r_vr_1 = ld64(r_rq);
l_join_wq_1:;
    u8 *r_fx_9 = ldp(a_3);
    st8(away(r_fx_9, r_vr_1), 34u);
    stp(a_3, r_fx_9);
    st64(r_rq, (r_vr_1 + 1ull));
    st64(r_08_1, r_08_3);
    r_95 = 0u;
    r_t2 = 0u;
    goto l_capnp_5p;
l_arm_21_1:;
    r_95 = r_zo_1.f1;
    r_t2 = 1u;
l_capnp_5p:;
    struct s_i8_i8 r_3j_2 = (struct s_i8_i8){ 0 };
    r_3j_2.f0 = r_t2;
    struct s_i8_i8 r_9n_2 = r_3j_2;
    r_9n_2.f1 = r_95;
    r_pg = r_9n_2;
l_capnp_6i:;
    if (r_pg.f0 == 0u) goto l_loop_aw;
    r_bs_2 = r_pg.f1;
    r_77_2 = 1u;
    goto l_capnp_8i_2;
l_arm_n1:;
    r_aq_1 = ld64(r_rq);
l_arm_06_1:;
    if (r_aq_1 > 0x3ffffbeull) { r_bs_2 = 0u; r_77_2 = 1u; goto l_capnp_8i_2; }
    u64 r_52_25 = ld64(r_08_1);
    if (!((r_52_25 - r_aq_1) < 2ull)) { r_c0_1 = r_52_25; r_54 = r_aq_1; goto l_join_p3; }
    u8 r_y4_1 = std_alloc_vec_Vec_grow_amortized_9634afabedddd7ee(a_3, 2ull);
    if (!r_y4_1) { r_bs_2 = 1u; r_77_2 = 1u; goto l_capnp_8i_2; }
    r_c0_1 = ld64(r_08_1);
    r_54 = ld64(r_rq);
l_join_p3:;
    r_x4_1 = (r_54 + 2ull);
    r_fx_10 = ldp(a_3);
    r_2b_6 = away(r_fx_10, r_54);
    if (((u64)(uptr)r_2b_6 - (u64)(uptr)((u8 *)g_static_242)) < 2ull) { r_1y = 0ull; goto l_join_th; }
    st16(r_2b_6, 32093u);
    goto l_core_ga_1;
l_join_th:;
    st8((r_2b_6 + (i64)(r_1y)), ld8((((u8 *)g_static_242) + (i64)(r_1y))));
    u64 r_c4_9 = (r_1y + 1ull);
    if (!(r_c4_9 == 2ull)) { r_1y = r_c4_9; goto l_join_th; }
l_core_ga_1:;
    stp(a_3, r_fx_10);
    st64(r_rq, r_x4_1);
    st64(r_08_1, r_c0_1);
    r_bs_2 = 0u;
    r_77_2 = 0u;
l_capnp_8i_2:;
    struct s_i8_i8 r_3j_3 = (struct s_i8_i8){ 0 };
    r_3j_3.f0 = r_77_2;
    struct s_i8_i8 r_9n_3 = r_3j_3;
    r_9n_3.f1 = r_bs_2;
    r_vh_1 = r_9n_3;
    goto l_join_zt;
l_noarm_e1_1:;
    UNREACHABLE();
l_arm_0q:;
    st64(slot_2, r_eg);
    stp((slot_2 + 8), r_rv);
    st64((slot_2 + 16), r_qw);
    st64((slot_2 + 24), r_e9);
    st64((slot_2 + 32), r_vm);
    st64((slot_2 + 40), r_0n);
    st64((slot_2 + 48), r_a7);
    st32((slot_2 + 56), ((r_5k_1 == 0x80000000u) ? 0x80000000u : (r_5k_1 + 0xffffffffu)));
    struct s_i8_i8 r_5u = capnp_show_show_json_write_sections_5ccc1be374b2e488(slot_2, t_t8, r_gr, a_2, a_3);
    r_vh_1 = r_5u;
    goto l_join_zt;
l_arm_0q_1:;
    st64(slot_3, r_eg);
    stp((slot_3 + 8), r_rv);
    st64((slot_3 + 16), r_qw);
    st64((slot_3 + 24), r_e9);
    st64((slot_3 + 32), r_vm);
    st64((slot_3 + 40), r_0n);
    st64((slot_3 + 48), r_a7);
    st32((slot_3 + 56), ((r_5k_1 == 0x80000000u) ? 0x80000000u : (r_5k_1 + 0xffffffffu)));
    struct s_i8_i8 r_kc = capnp_show_show_json_write_pointer_array_5ccc1be374b2e488(1u, slot_3, r_7f, a_2, a_3);
    r_vh_1 = r_kc;
    goto l_join_zt;
l_arm_pg:;
    r_mx = ((r_5k_1 == 0x80000000u) ? 0x80000000u : (r_5k_1 + 0xffffffffu));
    st64((slot_1 + 56), 0ull);
    r_kp = capnp_show_show_text_Text_push_sizes(a_3, t_t8, r_gr);
    if (!(r_kp.f0 == 0u)) goto l_arm_rc;
    if ((r_5d | r_az_1) == 0u) goto l_then_te;
    goto l_join_16;
l_arm_rc:;
    struct s_i8_i8 r_fj = (struct s_i8_i8){ 1u, 0u };
    r_fj.f1 = r_kp.f1;
    r_a8_1 = r_fj;
    r_g7_1 = 1u;
    goto l_capnp_mf_1;
l_then_te:;
    struct s_i8_i8 r_w7 = capnp_show_show_text_Text_push_last_number(a_3, ((u8 *)g_static_255), 8ull, (u64)r_a5);
    r_a8_1 = r_w7;
    r_g7_1 = r_w7.f0;
    goto l_capnp_mf_1;
l_join_16:;
    r_6q = capnp_show_show_text_Text_push(a_3, ((u8 *)g_static_252), 11ull);
    if (!(r_6q.f0 == 0u)) goto l_arm_rc_1;
    st64(slot_1, r_eg);
    stp((slot_1 + 8), r_rv);
    st64((slot_1 + 16), r_qw);
    st64((slot_1 + 24), r_e9);
    st64((slot_1 + 32), r_vm);
    st64((slot_1 + 40), r_0n);
    st64((slot_1 + 48), r_a7);
    st32((slot_1 + 56), r_mx);
    r_fg = capnp_show_show_json_write_struct_elements_5ccc1be374b2e488(slot_1, t_t8, r_gr, r_a5, a_2, a_3);
    if (r_fg.f0 == 0u) goto l_arm_fg;
    goto l_arm_rc_2;
l_arm_rc_1:;
    struct s_i8_i8 r_fj_1 = (struct s_i8_i8){ 1u, 0u };
    r_fj_1.f1 = r_6q.f1;
    r_a8_1 = r_fj_1;
    r_g7_1 = 1u;
    goto l_capnp_mf_1;
l_arm_fg:;
    struct s_i8_i8 r_x9_1 = capnp_show_show_text_Text_push(a_3, ((u8 *)g_static_242), 2ull);
    r_a8_1 = r_x9_1;
    r_g7_1 = r_x9_1.f0;
    goto l_capnp_mf_1;
l_arm_rc_2:;
    struct s_i8_i8 r_fj_2 = (struct s_i8_i8){ 1u, 0u };
    r_fj_2.f1 = r_fg.f1;
    r_a8_1 = r_fj_2;
    r_g7_1 = 1u;
l_capnp_mf_1:;
    struct s_i8_i8 r_3j_4 = (struct s_i8_i8){ 0 };
    r_3j_4.f0 = r_g7_1;
    struct s_i8_i8 r_9n_4 = r_3j_4;
    r_9n_4.f1 = r_a8_1.f1;
    r_vh_1 = r_9n_4;
l_join_zt:;
    r_a8 = r_vh_1;
    r_g7 = r_vh_1.f0;
    goto l_capnp_mf;
l_noarm_e1:;
    UNREACHABLE();
l_capnp_mf:;
    struct s_i8_i8 r_3j_5 = (struct s_i8_i8){ 0 };
    r_3j_5.f0 = r_g7;
    struct s_i8_i8 r_9n_5 = r_3j_5;
    r_9n_5.f1 = r_a8.f1;
    r_1f = r_9n_5;
    goto l_capnp_5v;
l_switch_44:;
    r_gq = ld64((((u8 *)switch_table_capnp_canon_inputs_report_refusal_51) + (i64)(8 * r_50)));
    r_vn = ldp((((u8 *)switch_table_capnp_canon_inputs_report_refusal_50) + (i64)(8 * r_50)));
l_capnp_ud:;
    struct s_i8_i8 r_ay = capnp_show_show_json_Json_write_refusal(a_3, r_vn, r_gq);
    r_1f = r_ay;
l_capnp_5v:;
    if (!(r_1f.f0 == 0u)) { r_fu = r_1f.f1; r_vh = 1u; goto l_return_4x; }
l_arm_2q:;
    r_52_26 = ld64(r_rq);
    if (!(ld8(away(a_3, 64ull)) == 1u)) { r_fu = 0u; r_vh = 0u; goto l_return_4x; }
    if (r_52 > ld64(away(a_3, 80ull))) { r_fu = 0u; r_vh = 0u; goto l_return_4x; }
    if (!(ld64(away(a_3, 72ull)) < r_52_26)) { r_fu = 0u; r_vh = 0u; goto l_return_4x; }
    st64(away(a_3, 112ull), r_52);
    r_fu = 2u;
    r_vh = 1u;
l_return_4x:;
    struct s_i8_i8 r_3j_6 = (struct s_i8_i8){ 0 };
    r_3j_6.f0 = r_vh;
    struct s_i8_i8 r_9n_6 = r_3j_6;
    r_9n_6.f1 = r_fu;
    return r_9n_6;
}

/* capnp_show::show::json::Json::write_place */
static struct s_i8_i8 capnp_show_show_json_Json_write_place(u8 *a_1, u8 *a_2, u64 a_3, u64 a_4, u32 a_5)
{
    u8 *r_rq;
    u64 r_52;
    u8 *r_08;
    u64 r_0p;
    u64 r_fj;
    u64 r_zx;
    u8 *r_fx;
    u8 *r_2b;
    u64 r_31;
    u8 r_e7;
    struct s_i8_i8 r_yu;
    u64 r_7l;
    u64 r_52_2;
    u8 *r_08_1;
    u64 r_qd;
    u64 r_cr;
    u8 r_e7_1;
    struct s_i8_i8 r_yu_1;
    u64 r_52_4;
    u8 *r_08_2;
    u64 r_c0;
    u64 r_54;
    u64 r_x4;
    u8 *r_fx_2;
    u8 *r_2b_1;
    u64 r_i4;
    u8 r_fu;
    u8 r_vh;
    r_rq = away(a_1, 8ull);
    r_52 = ld64(r_rq);
    if ((r_52 > 0x3ffffc0ull) ? 1u : ((0x3ffffc0ull - r_52) < a_3)) { r_e7 = 0u; goto l_arm_n5; }
    r_08 = away(a_1, 16ull);
    u64 r_52_1 = ld64(r_08);
    if (!(a_3 > (r_52_1 - r_52))) { r_0p = r_52_1; r_fj = r_52; goto l_join_8y; }
    u8 r_sq = std_alloc_vec_Vec_grow_amortized_9634afabedddd7ee(a_1, a_3);
    if (!r_sq) { r_e7 = 1u; goto l_arm_n5; }
    r_0p = ld64(r_08);
    r_fj = ld64(r_rq);
l_join_8y:;
    r_zx = (r_fj + a_3);
    r_fx = ldp(a_1);
    memset(r_rq, 0u, 16);
    r_2b = away(r_fx, r_fj);
    if (((u64)(uptr)r_2b - (u64)(uptr)a_2) < a_3) { r_31 = 0ull; goto l_join_sz; }
    memmove_or_none(r_2b, a_2, a_3);
    goto l_arm_zo;
l_join_sz:;
    st8((r_2b + (i64)(r_31)), ld8((a_2 + (i64)(r_31))));
    u64 r_c4 = (r_31 + 1ull);
    if (!(r_c4 == a_3)) { r_31 = r_c4; goto l_join_sz; }
l_arm_zo:;
    stp(a_1, r_fx);
    st64(r_rq, r_zx);
    st64(r_08, r_0p);
    struct s_i8_i8 r_vc = capnp_show_show_text_Text_push_number(a_1, a_4);
    r_yu = r_vc;
    goto l_capnp_v4;
l_arm_n5:;
    struct s_i8_i8 t_fj = (struct s_i8_i8){ 1u, 0u };
    t_fj.f1 = r_e7;
    r_yu = t_fj;
l_capnp_v4:;
    if (!(r_yu.f0 == 0u)) goto l_arm_dn;
    r_7l = (u64)a_5;
    r_52_2 = ld64(r_rq);
    if (r_52_2 > 0x3ffffbfull) { r_e7_1 = 0u; goto l_arm_n5_1; }
    r_08_1 = away(a_1, 16ull);
    u64 r_52_3 = ld64(r_08_1);
    if (!(r_52_3 == r_52_2)) { r_qd = r_52_3; r_cr = r_52_2; goto l_join_tk; }
    u8 r_av = std_alloc_vec_Vec_grow_amortized_9634afabedddd7ee(a_1, 1ull);
    if (!r_av) { r_e7_1 = 1u; goto l_arm_n5_1; }
    r_qd = ld64(r_08_1);
    r_cr = ld64(r_rq);
l_join_tk:;
    u8 *r_fx_1 = ldp(a_1);
    st8(away(r_fx_1, r_cr), 44u);
    stp(a_1, r_fx_1);
    st64(r_rq, (r_cr + 1ull));
    st64(r_08_1, r_qd);
    struct s_i8_i8 r_zo = capnp_show_show_text_Text_push_number(a_1, r_7l);
    r_yu_1 = r_zo;
    goto l_capnp_v4_1;
l_arm_n5_1:;
    struct s_i8_i8 t_fj_1 = (struct s_i8_i8){ 1u, 0u };
    t_fj_1.f1 = r_e7_1;
    r_yu_1 = t_fj_1;
l_capnp_v4_1:;
    if (r_yu_1.f0 == 0u) goto l_arm_0y;
    goto l_arm_dn_1;
l_arm_dn:;
    r_fu = r_yu.f1;
    r_vh = 1u;
    goto l_return_4x;
l_arm_0y:;
    r_52_4 = ld64(r_rq);
    if (r_52_4 > 0x3ffffbeull) { r_fu = 0u; r_vh = 1u; goto l_return_4x; }
    r_08_2 = away(a_1, 16ull);
    u64 r_52_5 = ld64(r_08_2);
    if (!((r_52_5 - r_52_4) < 2ull)) { r_c0 = r_52_5; r_54 = r_52_4; goto l_join_p3; }
    u8 r_y4 = std_alloc_vec_Vec_grow_amortized_9634afabedddd7ee(a_1, 2ull);
    if (!r_y4) { r_fu = 1u; r_vh = 1u; goto l_return_4x; }
    r_c0 = ld64(r_08_2);
    r_54 = ld64(r_rq);
l_join_p3:;
    r_x4 = (r_54 + 2ull);
    r_fx_2 = ldp(a_1);
    r_2b_1 = away(r_fx_2, r_54);
    if (((u64)(uptr)r_2b_1 - (u64)(uptr)((u8 *)g_static_233)) < 2ull) { r_i4 = 0ull; goto l_join_lk; }
    st16(r_2b_1, 11357u);
    goto l_core_x2;
l_join_lk:;
    st8((r_2b_1 + (i64)(r_i4)), ld8((((u8 *)g_static_233) + (i64)(r_i4))));
    u64 r_c4_1 = (r_i4 + 1ull);
    if (!(r_c4_1 == 2ull)) { r_i4 = r_c4_1; goto l_join_lk; }
l_core_x2:;
    stp(a_1, r_fx_2);
    st64(r_rq, r_x4);
    st64(r_08_2, r_c0);
    r_fu = 0u;
    r_vh = 0u;
    goto l_return_4x;
l_arm_dn_1:;
    r_fu = r_yu_1.f1;
    r_vh = 1u;
l_return_4x:;
    struct s_i8_i8 r_3j = (struct s_i8_i8){ 0 };
    r_3j.f0 = r_vh;
    struct s_i8_i8 r_9n = r_3j;
    r_9n.f1 = r_fu;
    return r_9n;
}

/* capnp_show::show::text::Text::push_last_number */
static struct s_i8_i8 capnp_show_show_text_Text_push_last_number(u8 *a_1, u8 *a_2, u64 a_3, u64 a_4)
{
    u8 *r_rq;
    u64 r_52;
    u8 *r_08;
    u64 r_0p;
    u64 r_fj;
    u64 r_zx;
    u8 *r_fx;
    u8 *r_2b;
    u64 r_31;
    struct s_i8_i8 r_ec;
    u64 r_52_2;
    u64 r_29;
    u64 r_el;
    u8 r_fu;
    u8 r_vh;
    r_rq = away(a_1, 8ull);
    r_52 = ld64(r_rq);
    if ((r_52 > 0x3ffffc0ull) ? 1u : ((0x3ffffc0ull - r_52) < a_3)) { r_fu = 0u; r_vh = 1u; goto l_return_4x; }
    r_08 = away(a_1, 16ull);
    u64 r_52_1 = ld64(r_08);
    if (!(a_3 > (r_52_1 - r_52))) { r_0p = r_52_1; r_fj = r_52; goto l_join_8y; }
    u8 r_7h = std_alloc_vec_Vec_grow_amortized_9634afabedddd7ee(a_1, a_3);
    if (!r_7h) { r_fu = 1u; r_vh = 1u; goto l_return_4x; }
    r_0p = ld64(r_08);
    r_fj = ld64(r_rq);
l_join_8y:;
    r_zx = (r_fj + a_3);
    r_fx = ldp(a_1);
    memset(r_rq, 0u, 16);
    r_2b = away(r_fx, r_fj);
    if (((u64)(uptr)r_2b - (u64)(uptr)a_2) < a_3) { r_31 = 0ull; goto l_join_sz; }
    memmove_or_none(r_2b, a_2, a_3);
    goto l_arm_si;
l_join_sz:;
    st8((r_2b + (i64)(r_31)), ld8((a_2 + (i64)(r_31))));
    u64 r_c4 = (r_31 + 1ull);
    if (!(r_c4 == a_3)) { r_31 = r_c4; goto l_join_sz; }
l_arm_si:;
    stp(a_1, r_fx);
    st64(r_rq, r_zx);
    st64(r_08, r_0p);
    r_ec = capnp_show_show_text_Text_push_number(a_1, a_4);
    if (!(r_ec.f0 == 0u)) goto l_arm_dn;
    r_52_2 = ld64(r_rq);
    if (r_52_2 > 0x3ffffbfull) { r_fu = 0u; r_vh = 1u; goto l_return_4x; }
    u64 r_52_3 = ld64(r_08);
    if (!(r_52_3 == r_52_2)) { r_29 = r_52_3; r_el = r_52_2; goto l_join_n2; }
    u8 r_av = std_alloc_vec_Vec_grow_amortized_9634afabedddd7ee(a_1, 1ull);
    if (!r_av) { r_fu = 1u; r_vh = 1u; goto l_return_4x; }
    r_29 = ld64(r_08);
    r_el = ld64(r_rq);
l_join_n2:;
    u8 *r_fx_1 = ldp(a_1);
    st8(away(r_fx_1, r_el), 125u);
    stp(a_1, r_fx_1);
    st64(r_rq, (r_el + 1ull));
    st64(r_08, r_29);
    r_fu = 0u;
    r_vh = 0u;
    goto l_return_4x;
l_arm_dn:;
    r_fu = r_ec.f1;
    r_vh = 1u;
l_return_4x:;
    struct s_i8_i8 r_3j = (struct s_i8_i8){ 0 };
    r_3j.f0 = r_vh;
    struct s_i8_i8 r_9n = r_3j;
    r_9n.f1 = r_fu;
    return r_9n;
}

/* capnp_show::show::text::Text::push_quoted */
static struct s_i8_i8 capnp_show_show_text_Text_push_quoted(u8 *a_1, u8 *a_2, u64 a_3)
{
    u8 *r_rq;
    u64 r_52;
    u8 *r_08;
    u64 r_08_1;
    u64 r_vr;
    u8 *r_bk;
    u64 r_pp;
    u64 r_pa;
    u8 *r_vh_1;
    u64 r_f9;
    u64 r_du;
    u8 r_47;
    u16 r_y5_1;
    u8 *r_a6;
    u64 r_9p;
    u64 r_w9;
    u64 r_5q;
    u8 *r_2b;
    u64 r_il;
    u8 *r_fx_1;
    u64 r_kh;
    u64 r_7t;
    u8 *r_y5;
    u64 r_hx;
    u64 r_1o;
    u64 r_tl;
    u8 *r_z3;
    u8 *r_a6_1;
    u64 r_9p_1;
    u64 r_w9_1;
    u64 r_5q_1;
    u8 *r_2b_2;
    u64 r_il_1;
    u8 *r_sv;
    u64 r_s2;
    u64 r_eh;
    u8 r_fu;
    u8 r_vh;
    r_rq = away(a_1, 8ull);
    r_52 = ld64(r_rq);
    if (r_52 > 0x3ffffbfull) { r_fu = 0u; r_vh = 1u; goto l_return_4x; }
    r_08 = away(a_1, 16ull);
    u64 r_52_1 = ld64(r_08);
    if (!(r_52_1 == r_52)) { r_08_1 = r_52_1; r_vr = r_52; goto l_join_wq; }
    u8 r_av = std_alloc_vec_Vec_grow_amortized_9634afabedddd7ee(a_1, 1ull);
    if (!r_av) { r_fu = 1u; r_vh = 1u; goto l_return_4x; }
    r_08_1 = ld64(r_08);
    r_vr = ld64(r_rq);
l_join_wq:;
    u64 r_7n = (r_vr + 1ull);
    u8 *r_fx = ldp(a_1);
    st8(away(r_fx, r_vr), 34u);
    stp(a_1, r_fx);
    st64(r_rq, r_7n);
    st64(r_08, r_08_1);
    if (a_3 == 0ull) { r_y5 = r_fx; r_hx = r_08_1; r_1o = r_7n; r_tl = 0ull; r_z3 = a_2; goto l_after_07; }
    r_bk = r_fx;
    r_pp = r_08_1;
    r_pa = r_7n;
    r_vh_1 = a_2;
    r_f9 = a_3;
l_join_qu:;
    r_du = 0ull;
l_join_wb:;
    r_47 = ld8(away(r_vh_1, r_du));
    switch (r_47) {
    case 34u: goto l_arm_0e;
    case 92u: goto l_arm_0e;
    case 9u: { r_y5_1 = 29788u; goto l_arm_07; }
    case 10u: goto l_arm_m6;
    case 13u: goto l_arm_m6_1;
    default: goto l_after_94;
    }
l_after_94:;
    u64 r_36 = (r_du + 1ull);
    if (r_36 == r_f9) { r_y5 = r_bk; r_hx = r_pp; r_1o = r_pa; r_tl = r_f9; r_z3 = r_vh_1; goto l_after_07; }
    r_du = r_36;
    goto l_join_wb;
l_arm_0e:;
    r_y5_1 = (u16)((u16)((u32)(u16)r_47 << 8u) | 92u);
    goto l_arm_07;
l_arm_m6:;
    r_y5_1 = 28252u;
    goto l_arm_07;
l_arm_m6_1:;
    r_y5_1 = 29276u;
l_arm_07:;
    if ((r_pa > 0x3ffffc0ull) ? 1u : ((0x3ffffc0ull - r_pa) < r_du)) { r_fu = 0u; r_vh = 1u; goto l_return_4x; }
    if (!(r_du > (r_pp - r_pa))) { r_a6 = r_bk; r_9p = r_pp; r_w9 = r_pa; goto l_join_wm; }
    u8 r_c4 = std_alloc_vec_Vec_grow_amortized_9634afabedddd7ee(a_1, r_du);
    if (!r_c4) { r_fu = 1u; r_vh = 1u; goto l_return_4x; }
    r_a6 = ldp(a_1);
    r_9p = ld64(r_08);
    r_w9 = ld64(r_rq);
l_join_wm:;
    r_5q = (r_w9 + r_du);
    memset(r_rq, 0u, 16);
    r_2b = away(r_a6, r_w9);
    if (((u64)(uptr)r_2b - (u64)(uptr)r_vh_1) < r_du) { r_il = 0ull; goto l_join_fh; }
    memmove_or_none(r_2b, r_vh_1, r_du);
    goto l_arm_pd;
l_join_fh:;
    st8((r_2b + (i64)(r_il)), ld8((r_vh_1 + (i64)(r_il))));
    u64 r_36_1 = (r_il + 1ull);
    if (!(r_36_1 == r_du)) { r_il = r_36_1; goto l_join_fh; }
l_arm_pd:;
    stp(a_1, r_a6);
    st64(r_rq, r_5q);
    st64(r_08, r_9p);
    if (r_5q > 0x3ffffbeull) { r_fu = 0u; r_vh = 1u; goto l_return_4x; }
    if (!((r_9p - r_5q) < 2ull)) { r_fx_1 = r_a6; r_kh = r_9p; r_7t = r_5q; goto l_join_kg; }
    u8 r_y4 = std_alloc_vec_Vec_grow_amortized_9634afabedddd7ee(a_1, 2ull);
    if (!r_y4) { r_fu = 1u; r_vh = 1u; goto l_return_4x; }
    r_fx_1 = ldp(a_1);
    r_kh = ld64(r_08);
    r_7t = ld64(r_rq);
l_join_kg:;
    u64 r_x4 = (r_7t + 2ull);
    st16(away(r_fx_1, r_7t), r_y5_1);
    stp(a_1, r_fx_1);
    st64(r_rq, r_x4);
    st64(r_08, r_kh);
    u64 r_c4_1 = (r_du + 1ull);
    u8 *r_2b_1 = away(r_vh_1, r_c4_1);
    u64 r_t9 = (r_f9 - r_c4_1);
    if (r_t9 == 0ull) { r_y5 = r_fx_1; r_hx = r_kh; r_1o = r_x4; r_tl = 0ull; r_z3 = r_2b_1; goto l_after_07; }
    r_bk = r_fx_1;
    r_pp = r_kh;
    r_pa = r_x4;
    r_vh_1 = r_2b_1;
    r_f9 = r_t9;
    goto l_join_qu;
l_after_07:;
    if ((r_1o > 0x3ffffc0ull) ? 1u : ((0x3ffffc0ull - r_1o) < r_tl)) { r_fu = 0u; r_vh = 1u; goto l_return_4x; }
    if (!(r_tl > (r_hx - r_1o))) { r_a6_1 = r_y5; r_9p_1 = r_hx; r_w9_1 = r_1o; goto l_join_wm_1; }
    u8 r_c4_2 = std_alloc_vec_Vec_grow_amortized_9634afabedddd7ee(a_1, r_tl);
    if (!r_c4_2) { r_fu = 1u; r_vh = 1u; goto l_return_4x; }
    r_a6_1 = ldp(a_1);
    r_9p_1 = ld64(r_08);
    r_w9_1 = ld64(r_rq);
l_join_wm_1:;
    r_5q_1 = (r_w9_1 + r_tl);
    memset(r_rq, 0u, 16);
    r_2b_2 = away(r_a6_1, r_w9_1);
    if (((u64)(uptr)r_2b_2 - (u64)(uptr)r_z3) < r_tl) { r_il_1 = 0ull; goto l_join_fh_1; }
    memmove_or_none(r_2b_2, r_z3, r_tl);
    goto l_arm_or;
l_join_fh_1:;
    st8((r_2b_2 + (i64)(r_il_1)), ld8((r_z3 + (i64)(r_il_1))));
    u64 r_36_2 = (r_il_1 + 1ull);
    if (!(r_36_2 == r_tl)) { r_il_1 = r_36_2; goto l_join_fh_1; }
l_arm_or:;
    stp(a_1, r_a6_1);
    st64(r_rq, r_5q_1);
    st64(r_08, r_9p_1);
    if (r_5q_1 > 0x3ffffbfull) { r_fu = 0u; r_vh = 1u; goto l_return_4x; }
    if (!(r_9p_1 == r_5q_1)) { r_sv = r_a6_1; r_s2 = r_9p_1; r_eh = r_5q_1; goto l_join_nn; }
    u8 r_av_1 = std_alloc_vec_Vec_grow_amortized_9634afabedddd7ee(a_1, 1ull);
    if (!r_av_1) { r_fu = 1u; r_vh = 1u; goto l_return_4x; }
    r_sv = ldp(a_1);
    r_s2 = ld64(r_08);
    r_eh = ld64(r_rq);
l_join_nn:;
    st8(away(r_sv, r_eh), 34u);
    stp(a_1, r_sv);
    st64(r_rq, (r_eh + 1ull));
    st64(r_08, r_s2);
    r_fu = 0u;
    r_vh = 0u;
l_return_4x:;
    struct s_i8_i8 r_3j = (struct s_i8_i8){ 0 };
    r_3j.f0 = r_vh;
    struct s_i8_i8 r_9n = r_3j;
    r_9n.f1 = r_fu;
    return r_9n;
}

/* capnp_show::show::json::write_sections::<#5ccc1be374b2e488> */
static struct s_i8_i8 capnp_show_show_json_write_sections_5ccc1be374b2e488(u8 *a_1, u16 a_2, u16 a_3, u32 a_4, u8 *a_5)
{
    A(1) u8 slot_1[1024];
    A(8) u8 slot_2[16];
    A(8) u8 slot_3[64];
    u8 r_dh;
    u64 r_qw;
    u8 *r_rv;
    u64 r_qw_1;
    u32 r_5k;
    u32 r_5k_1;
    u32 r_m2;
    u8 *r_ud;
    u64 a_5j;
    u8 *r_rq;
    u64 r_52;
    u8 *r_08;
    u64 r_di;
    u64 r_ju;
    u64 r_5q;
    u8 *r_fx;
    u8 *r_2b;
    u64 r_sd;
    u8 *r_x9;
    u64 r_tc;
    u64 r_wl;
    u8 *r_uz;
    u64 r_eu;
    u64 a_3q;
    u64 r_pt;
    u64 r_yb;
    u8 *r_wy;
    u64 r_2n;
    u64 r_wj;
    u8 *r_as;
    u64 r_y3;
    u64 r_9f;
    u8 *r_ph;
    u64 r_sf;
    u64 r_xn;
    u64 r_x4;
    u8 *r_2b_1;
    u64 r_ns;
    u8 r_r4;
    u8 r_9r;
    struct s_i8_i8 r_xx;
    r_dh = ld8(a_1);
    mv16(slot_2, away(a_1, 8ull));
    r_qw = ld64(away(a_1, 24ull));
    r_rv = ldp(away(a_1, 32ull));
    r_qw_1 = ld64(away(a_1, 40ull));
    r_5k = ld32(away(a_1, 48ull));
    r_5k_1 = ld32(away(a_1, 56ull));
    memset(slot_3, 0u, 64);
    r_m2 = (u32)a_2;
    u64 a_f1 = umin64(r_qw_1, (u64)((u64)r_5k << 3ull));
    r_ud = away(r_rv, a_f1);
    a_5j = umin64((r_qw_1 - a_f1), (u64)(u32)(r_m2 << 3u));
    r_rq = away(a_5, 8ull);
    r_52 = ld64(r_rq);
    if (r_52 > 0x3ffffb8ull) { r_9r = 0u; goto l_arm_f3; }
    r_08 = away(a_5, 16ull);
    u64 r_52_1 = ld64(r_08);
    if (!((r_52_1 - r_52) < 8ull)) { r_di = r_52_1; r_ju = r_52; goto l_join_sq; }
    u8 r_q2 = std_alloc_vec_Vec_grow_amortized_9634afabedddd7ee(a_5, 8ull);
    if (!r_q2) { r_9r = 1u; goto l_arm_f3; }
    r_di = ld64(r_08);
    r_ju = ld64(r_rq);
l_join_sq:;
    r_5q = (r_ju + 8ull);
    r_fx = ldp(a_5);
    r_2b = away(r_fx, r_ju);
    if (((u64)(uptr)r_2b - (u64)(uptr)((u8 *)g_static_247)) < 8ull) { r_sd = 0ull; goto l_join_bg; }
    st64(r_2b, 0x223a226174616422ull);
    goto l_arm_zr;
l_join_bg:;
    st8((r_2b + (i64)(r_sd)), ld8((((u8 *)g_static_247) + (i64)(r_sd))));
    u64 r_c4 = (r_sd + 1ull);
    if (!(r_c4 == 8ull)) { r_sd = r_c4; goto l_join_bg; }
l_arm_zr:;
    stp(a_5, r_fx);
    st64(r_rq, r_5q);
    st64(r_08, r_di);
    if (a_5j == 0ull) { r_as = r_fx; r_y3 = r_di; r_9f = r_5q; goto l_arm_e5; }
    r_x9 = r_fx;
    r_tc = r_di;
    r_wl = r_5q;
    r_uz = r_ud;
    r_eu = a_5j;
l_join_kl:;
    a_3q = umin64(r_eu, 512ull);
    memset(slot_1, 0u, 1024);
    r_pt = 0ull;
l_join_jf:;
    u8 r_47 = ld8((r_uz + (i64)(r_pt)));
    u8 *r_a7 = (slot_1 + (i64)((u64)(r_pt << 1ull)));
    st8(r_a7, ld8((((u8 *)g_static_197) + (i64)((u64)(u8)((u32)r_47 >> 4u)))));
    st8((r_a7 + 1), ld8((((u8 *)g_static_197) + (i64)((u64)(u8)(r_47 & 15u)))));
    u64 r_c4_1 = (r_pt + 1ull);
    if (!(r_c4_1 == a_3q)) { r_pt = r_c4_1; goto l_join_jf; }
    r_yb = (u64)(a_3q << 1ull);
    if ((r_wl > 0x3ffffc0ull) ? 1u : ((0x3ffffc0ull - r_wl) < r_yb)) { r_r4 = 0u; goto l_arm_5s; }
    if (!(r_yb > (r_tc - r_wl))) { r_wy = r_x9; r_2n = r_tc; r_wj = r_wl; goto l_arm_nw; }
    u8 r_c4_2 = std_alloc_vec_Vec_grow_amortized_9634afabedddd7ee(a_5, r_yb);
    if (!r_c4_2) { r_r4 = 1u; goto l_arm_5s; }
    r_wy = ldp(a_5);
    r_2n = ld64(r_08);
    r_wj = ld64(r_rq);
l_arm_nw:;
    u64 r_5q_1 = (r_wj + r_yb);
    memcpy_or_none(away(r_wy, r_wj), slot_1, r_yb);
    stp(a_5, r_wy);
    st64(r_rq, r_5q_1);
    st64(r_08, r_2n);
    u64 r_nr = (r_eu - a_3q);
    if (r_nr == 0ull) { r_as = r_wy; r_y3 = r_2n; r_9f = r_5q_1; goto l_arm_e5; }
    u8 *r_1 = r_wy;
    u64 r_2 = r_2n;
    u64 r_3 = r_5q_1;
    u8 *r_4 = away(r_uz, a_3q);
    u64 r_5 = r_nr;
    r_x9 = r_1;
    r_tc = r_2;
    r_wl = r_3;
    r_uz = r_4;
    r_eu = r_5;
    goto l_join_kl;
l_arm_e5:;
    if (r_9f > 0x3ffffbeull) { r_9r = 0u; goto l_arm_f3; }
    if (!((r_y3 - r_9f) < 2ull)) { r_ph = r_as; r_sf = r_y3; r_xn = r_9f; goto l_join_lv; }
    u8 r_y4 = std_alloc_vec_Vec_grow_amortized_9634afabedddd7ee(a_5, 2ull);
    if (!r_y4) { r_9r = 1u; goto l_arm_f3; }
    r_ph = ldp(a_5);
    r_sf = ld64(r_08);
    r_xn = ld64(r_rq);
l_join_lv:;
    r_x4 = (r_xn + 2ull);
    r_2b_1 = away(r_ph, r_xn);
    if (((u64)(uptr)r_2b_1 - (u64)(uptr)((u8 *)g_static_248)) < 2ull) { r_ns = 0ull; goto l_join_ce; }
    st16(r_2b_1, 11298u);
    goto l_arm_sv;
l_join_ce:;
    st8((r_2b_1 + (i64)(r_ns)), ld8((((u8 *)g_static_248) + (i64)(r_ns))));
    u64 r_c4_3 = (r_ns + 1ull);
    if (r_c4_3 == 2ull) goto l_arm_sv;
    r_ns = r_c4_3;
    goto l_join_ce;
l_arm_5s:;
    r_9r = r_r4;
    goto l_arm_f3;
l_arm_sv:;
    stp(a_5, r_ph);
    st64(r_rq, r_x4);
    st64(r_08, r_sf);
    st64(slot_3, (u64)r_dh);
    mv16((slot_3 + 8), slot_2);
    st64((slot_3 + 24), r_qw);
    stp((slot_3 + 32), r_rv);
    st64((slot_3 + 40), r_qw_1);
    st32((slot_3 + 48), (r_5k + r_m2));
    st32((slot_3 + 52), 0u);
    st32((slot_3 + 56), r_5k_1);
    struct s_i8_i8 r_10 = capnp_show_show_json_write_pointer_array_5ccc1be374b2e488(0u, slot_3, (u32)a_3, a_4, a_5);
    r_xx = r_10;
    goto l_return_bv;
l_arm_f3:;
    struct s_i8_i8 t_fj = (struct s_i8_i8){ 1u, 0u };
    t_fj.f1 = r_9r;
    r_xx = t_fj;
l_return_bv:;
    return r_xx;
}

/* capnp_show::show::json::write_pointer_array::<#5ccc1be374b2e488> */
static struct s_i8_i8 capnp_show_show_json_write_pointer_array_5ccc1be374b2e488(u8 a_1, u8 *a_2, u32 a_3, u32 a_4, u8 *a_5)
{
    A(8) u8 slot_1[16];
    A(8) u8 slot_2[16];
    A(8) u8 slot_3[64];
    u64 r_eg;
    u64 r_qw;
    u32 r_5k;
    u32 r_5k_1;
    u8 *r_rq;
    u64 r_52;
    u8 *r_08;
    u64 r_ih;
    u64 r_iy;
    u64 r_og;
    u8 *r_fx;
    u8 *r_2b;
    u64 r_wy;
    struct s_i8_i8 r_7j;
    u8 *r_rq_1;
    u64 r_52_2;
    u8 *r_08_1;
    u64 r_c0;
    u64 r_54;
    u64 r_x4;
    u8 *r_fx_1;
    u8 *r_2b_1;
    u64 r_1y;
    struct s_i8_i8 r_q2;
    u8 *r_rq_2;
    u8 *r_08_2;
    u8 *r_h6;
    u8 *r_o8;
    u8 *r_we;
    u8 *r_lg;
    u64 r_u3;
    u8 *r_x5;
    u8 *r_lk;
    u8 *r_89;
    u8 *r_c4_2;
    u8 *r_bk;
    u8 *r_6c;
    u32 r_ra;
    u64 wide_7l;
    u64 indvars_su;
    u64 r_52_4;
    u64 r_qd;
    u64 r_cr;
    u64 r_au;
    struct s_i8_i8 r_9b;
    u64 r_52_7;
    u8 *r_rq_3;
    u64 r_52_8;
    u8 *r_08_3;
    u64 r_c0_1;
    u64 r_54_1;
    u64 r_x4_1;
    u8 *r_fx_3;
    u8 *r_2b_2;
    u64 r_1y_1;
    u8 r_fu;
    u8 r_vh;
    r_eg = (u64)ld8(a_2);
    mv16(slot_1, away(a_2, 8ull));
    r_qw = ld64(away(a_2, 24ull));
    mv16(slot_2, away(a_2, 32ull));
    r_5k = ld32(away(a_2, 48ull));
    r_5k_1 = ld32(away(a_2, 56ull));
    st64((slot_3 + 56), 0ull);
    if (!(a_4 == 0u)) goto l_join_bk;
    if (a_3 == 0u) goto l_join_kx;
    r_rq = away(a_5, 8ull);
    r_52 = ld64(r_rq);
    if (r_52 > 0x3ffffb2ull) { r_fu = 0u; r_vh = 1u; goto l_return_4x; }
    r_08 = away(a_5, 16ull);
    u64 r_52_1 = ld64(r_08);
    if (!((r_52_1 - r_52) < 14ull)) { r_ih = r_52_1; r_iy = r_52; goto l_join_0s; }
    u8 r_tv = std_alloc_vec_Vec_grow_amortized_9634afabedddd7ee(a_5, 14ull);
    if (!r_tv) { r_fu = 1u; r_vh = 1u; goto l_return_4x; }
    r_ih = ld64(r_08);
    r_iy = ld64(r_rq);
l_join_0s:;
    r_og = (r_iy + 14ull);
    r_fx = ldp(a_5);
    r_2b = away(r_fx, r_iy);
    if (((u64)(uptr)r_2b - (u64)(uptr)((u8 *)g_static_249)) < 14ull) { r_wy = 0ull; goto l_join_ma; }
    mv14(r_2b, ((u8 *)g_static_249));
    goto l_core_x2;
l_join_ma:;
    st8((r_2b + (i64)(r_wy)), ld8((((u8 *)g_static_249) + (i64)(r_wy))));
    u64 r_c4 = (r_wy + 1ull);
    if (!(r_c4 == 14ull)) { r_wy = r_c4; goto l_join_ma; }
l_core_x2:;
    stp(a_5, r_fx);
    st64(r_rq, r_og);
    st64(r_08, r_ih);
    r_fu = 0u;
    r_vh = 0u;
    goto l_return_4x;
l_join_kx:;
    r_7j = capnp_show_show_text_Text_push_array_start(a_5, a_1);
    if (!(r_7j.f0 == 0u)) goto l_arm_dn;
    r_rq_1 = away(a_5, 8ull);
    r_52_2 = ld64(r_rq_1);
    if (r_52_2 > 0x3ffffbeull) { r_fu = 0u; r_vh = 1u; goto l_return_4x; }
    r_08_1 = away(a_5, 16ull);
    u64 r_52_3 = ld64(r_08_1);
    if (!((r_52_3 - r_52_2) < 2ull)) { r_c0 = r_52_3; r_54 = r_52_2; goto l_join_p3; }
    u8 r_y4 = std_alloc_vec_Vec_grow_amortized_9634afabedddd7ee(a_5, 2ull);
    if (!r_y4) { r_fu = 1u; r_vh = 1u; goto l_return_4x; }
    r_c0 = ld64(r_08_1);
    r_54 = ld64(r_rq_1);
l_join_p3:;
    r_x4 = (r_54 + 2ull);
    r_fx_1 = ldp(a_5);
    r_2b_1 = away(r_fx_1, r_54);
    if (((u64)(uptr)r_2b_1 - (u64)(uptr)((u8 *)g_static_242)) < 2ull) { r_1y = 0ull; goto l_join_th; }
    st16(r_2b_1, 32093u);
    goto l_core_x2_1;
l_join_th:;
    st8((r_2b_1 + (i64)(r_1y)), ld8((((u8 *)g_static_242) + (i64)(r_1y))));
    u64 r_c4_1 = (r_1y + 1ull);
    if (!(r_c4_1 == 2ull)) { r_1y = r_c4_1; goto l_join_th; }
l_core_x2_1:;
    stp(a_5, r_fx_1);
    st64(r_rq_1, r_x4);
    st64(r_08_1, r_c0);
    r_fu = 0u;
    r_vh = 0u;
    goto l_return_4x;
l_arm_dn:;
    r_fu = r_7j.f1;
    r_vh = 1u;
    goto l_return_4x;
l_join_bk:;
    r_q2 = capnp_show_show_text_Text_push_array_start(a_5, a_1);
    if (!(r_q2.f0 == 0u)) goto l_arm_dn_1;
    if (a_3 == 0u) goto l_after_xa;
    r_rq_2 = away(a_5, 8ull);
    r_08_2 = away(a_5, 16ull);
    r_h6 = away(a_5, 64ull);
    r_o8 = away(a_5, 88ull);
    r_we = away(a_5, 104ull);
    r_lg = away(a_5, 96ull);
    r_u3 = (u64)a_1;
    r_x5 = (slot_3 + 8);
    r_lk = (slot_3 + 24);
    r_89 = (slot_3 + 32);
    r_c4_2 = (slot_3 + 48);
    r_bk = (slot_3 + 52);
    r_6c = (slot_3 + 56);
    r_ra = (a_4 + 0xffffffffu);
    wide_7l = (u64)a_3;
    indvars_su = 0ull;
    goto l_join_if;
l_arm_dn_1:;
    r_fu = r_q2.f1;
    r_vh = 1u;
    goto l_return_4x;
l_join_if:;
    if (indvars_su == 0ull) goto l_arm_gs;
    r_52_4 = ld64(r_rq_2);
    if (r_52_4 > 0x3ffffbfull) { r_fu = 0u; r_vh = 1u; goto l_return_4x; }
    u64 r_52_5 = ld64(r_08_2);
    if (!(r_52_5 == r_52_4)) { r_qd = r_52_5; r_cr = r_52_4; goto l_join_tk; }
    u8 r_av = std_alloc_vec_Vec_grow_amortized_9634afabedddd7ee(a_5, 1ull);
    if (!r_av) { r_fu = 1u; r_vh = 1u; goto l_return_4x; }
    r_qd = ld64(r_08_2);
    r_cr = ld64(r_rq_2);
l_join_tk:;
    u8 *r_fx_2 = ldp(a_5);
    st8(away(r_fx_2, r_cr), 44u);
    stp(a_5, r_fx_2);
    st64(r_rq_2, (r_cr + 1ull));
    st64(r_08_2, r_qd);
l_arm_gs:;
    if (ld8(r_h6) == 0u) goto l_arm_lq;
    u64 r_52_6 = ld64(r_lg);
    if (!(ld64(r_we) == r_52_6)) { r_au = r_52_6; goto l_join_qq; }
    u8 r_5t = std_alloc_vec_Vec_grow_amortized_e6560bd0eee8a70a(r_o8);
    if (!r_5t) { r_fu = 1u; r_vh = 1u; goto l_return_4x; }
    r_au = ld64(r_lg);
l_join_qq:;
    st64((ldp(r_o8) + (i64)((u64)(r_au << 3ull))), ((u64)(indvars_su << 32ull) | r_u3));
    st64(r_lg, (r_au + 1ull));
l_arm_lq:;
    mv16(r_x5, slot_1);
    mv16(r_89, slot_2);
    st64(slot_3, r_eg);
    st64(r_lk, r_qw);
    st32(r_c4_2, (r_5k + (u32)indvars_su));
    st32(r_bk, 0u);
    st32(r_6c, r_5k_1);
    r_9b = capnp_show_show_json_write_pointed_value_5ccc1be374b2e488(slot_3, r_ra, a_5);
    if (!(r_9b.f0 == 0u)) goto l_arm_dn_2;
    if (!(ld8(r_h6) == 1u)) goto l_capnp_4g;
    r_52_7 = ld64(r_lg);
    if (r_52_7 == 0ull) goto l_capnp_4g;
    st64(r_lg, (r_52_7 + 0xffffffffffffffffull));
l_capnp_4g:;
    u64 indvars_r7 = (indvars_su + 1ull);
    if (indvars_r7 == wide_7l) goto l_after_xa;
    indvars_su = indvars_r7;
    goto l_join_if;
l_arm_dn_2:;
    r_fu = r_9b.f1;
    r_vh = 1u;
    goto l_return_4x;
l_after_xa:;
    r_rq_3 = away(a_5, 8ull);
    r_52_8 = ld64(r_rq_3);
    if (r_52_8 > 0x3ffffbeull) { r_fu = 0u; r_vh = 1u; goto l_return_4x; }
    r_08_3 = away(a_5, 16ull);
    u64 r_52_9 = ld64(r_08_3);
    if (!((r_52_9 - r_52_8) < 2ull)) { r_c0_1 = r_52_9; r_54_1 = r_52_8; goto l_join_p3_1; }
    u8 r_y4_1 = std_alloc_vec_Vec_grow_amortized_9634afabedddd7ee(a_5, 2ull);
    if (!r_y4_1) { r_fu = 1u; r_vh = 1u; goto l_return_4x; }
    r_c0_1 = ld64(r_08_3);
    r_54_1 = ld64(r_rq_3);
l_join_p3_1:;
    r_x4_1 = (r_54_1 + 2ull);
    r_fx_3 = ldp(a_5);
    r_2b_2 = away(r_fx_3, r_54_1);
    if (((u64)(uptr)r_2b_2 - (u64)(uptr)((u8 *)g_static_242)) < 2ull) { r_1y_1 = 0ull; goto l_join_th_1; }
    st16(r_2b_2, 32093u);
    goto l_core_x2_2;
l_join_th_1:;
    st8((r_2b_2 + (i64)(r_1y_1)), ld8((((u8 *)g_static_242) + (i64)(r_1y_1))));
    u64 r_c4_3 = (r_1y_1 + 1ull);
    if (!(r_c4_3 == 2ull)) { r_1y_1 = r_c4_3; goto l_join_th_1; }
l_core_x2_2:;
    stp(a_5, r_fx_3);
    st64(r_rq_3, r_x4_1);
    st64(r_08_3, r_c0_1);
    r_fu = 0u;
    r_vh = 0u;
l_return_4x:;
    struct s_i8_i8 r_3j = (struct s_i8_i8){ 0 };
    r_3j.f0 = r_vh;
    struct s_i8_i8 r_9n = r_3j;
    r_9n.f1 = r_fu;
    return r_9n;
}

/* capnp_show::show::text::Text::push_array_start */
static struct s_i8_i8 capnp_show_show_text_Text_push_array_start(u8 *a_1, u8 a_2)
{
    u8 *r_rq;
    u64 r_52;
    u8 *r_08;
    u64 r_di;
    u64 r_ju;
    u64 r_5q;
    u8 *r_fx;
    u8 *r_2b;
    u64 r_cm;
    u8 *r_08_1;
    u64 r_yi;
    u64 r_xi;
    u64 r_4y;
    u8 *r_fx_1;
    u8 *r_2b_1;
    u64 r_sl;
    u8 r_fu;
    u8 r_vh;
    r_rq = away(a_1, 8ull);
    r_52 = ld64(r_rq);
    if (!a_2) goto l_join_m2;
    if (r_52 > 0x3ffffb8ull) { r_fu = 1u; r_vh = 0u; goto l_return_4x; }
    r_08 = away(a_1, 16ull);
    u64 r_52_1 = ld64(r_08);
    if (!((r_52_1 - r_52) < 8ull)) { r_di = r_52_1; r_ju = r_52; goto l_join_sq; }
    u8 r_q2 = std_alloc_vec_Vec_grow_amortized_9634afabedddd7ee(a_1, 8ull);
    if (!r_q2) { r_fu = 1u; r_vh = 1u; goto l_return_4x; }
    r_di = ld64(r_08);
    r_ju = ld64(r_rq);
l_join_sq:;
    r_5q = (r_ju + 8ull);
    r_fx = ldp(a_1);
    r_2b = away(r_fx, r_ju);
    if (((u64)(uptr)r_2b - (u64)(uptr)((u8 *)g_static_250)) < 8ull) { r_cm = 0ull; goto l_join_zr; }
    st64(r_2b, 0x5b3a227473696c22ull);
    goto l_core_x2;
l_join_zr:;
    st8((r_2b + (i64)(r_cm)), ld8((((u8 *)g_static_250) + (i64)(r_cm))));
    u64 r_c4 = (r_cm + 1ull);
    if (!(r_c4 == 8ull)) { r_cm = r_c4; goto l_join_zr; }
l_core_x2:;
    stp(a_1, r_fx);
    st64(r_rq, r_5q);
    st64(r_08, r_di);
    r_fu = 0u;
    r_vh = 0u;
    goto l_return_4x;
l_join_m2:;
    if (r_52 > 0x3ffffb4ull) { r_fu = 1u; r_vh = 0u; goto l_return_4x; }
    r_08_1 = away(a_1, 16ull);
    u64 r_52_2 = ld64(r_08_1);
    if (!((r_52_2 - r_52) < 12ull)) { r_yi = r_52_2; r_xi = r_52; goto l_join_4b; }
    u8 r_42 = std_alloc_vec_Vec_grow_amortized_9634afabedddd7ee(a_1, 12ull);
    if (!r_42) { r_fu = 1u; r_vh = 1u; goto l_return_4x; }
    r_yi = ld64(r_08_1);
    r_xi = ld64(r_rq);
l_join_4b:;
    r_4y = (r_xi + 12ull);
    r_fx_1 = ldp(a_1);
    r_2b_1 = away(r_fx_1, r_xi);
    if (((u64)(uptr)r_2b_1 - (u64)(uptr)((u8 *)g_static_251)) < 12ull) { r_sl = 0ull; goto l_join_ou; }
    mv12(r_2b_1, ((u8 *)g_static_251));
    goto l_core_x2_1;
l_join_ou:;
    st8((r_2b_1 + (i64)(r_sl)), ld8((((u8 *)g_static_251) + (i64)(r_sl))));
    u64 r_c4_1 = (r_sl + 1ull);
    if (!(r_c4_1 == 12ull)) { r_sl = r_c4_1; goto l_join_ou; }
l_core_x2_1:;
    stp(a_1, r_fx_1);
    st64(r_rq, r_4y);
    st64(r_08_1, r_yi);
    r_fu = 0u;
    r_vh = 0u;
l_return_4x:;
    struct s_i8_i8 r_3j = (struct s_i8_i8){ 0 };
    r_3j.f0 = r_fu;
    struct s_i8_i8 r_9n = r_3j;
    r_9n.f1 = r_vh;
    return r_9n;
}

/* capnp_show::show::text::Text::push_sizes */
static struct s_i8_i8 capnp_show_show_text_Text_push_sizes(u8 *a_1, u16 a_2, u16 a_3)
{
    u64 r_bi;
    u8 *r_rq;
    u64 r_52;
    u8 *r_08;
    u64 r_3h;
    u64 r_v4;
    u64 r_dr;
    u8 *r_fx;
    u8 *r_2b;
    u64 r_bd;
    u8 r_e7;
    struct s_i8_i8 r_yu;
    u64 r_bi_1;
    u64 r_52_2;
    u8 *r_08_1;
    u64 r_5s;
    u64 r_05;
    u64 r_br;
    u8 *r_fx_1;
    u8 *r_2b_1;
    u64 r_kn;
    u8 r_e7_1;
    struct s_i8_i8 r_yu_1;
    u64 r_52_4;
    u8 *r_08_2;
    u64 r_qd;
    u64 r_cr;
    u8 r_fu;
    u8 r_vh;
    r_bi = (u64)a_2;
    r_rq = away(a_1, 8ull);
    r_52 = ld64(r_rq);
    if (r_52 > 0x3ffffb3ull) { r_e7 = 0u; goto l_arm_n5; }
    r_08 = away(a_1, 16ull);
    u64 r_52_1 = ld64(r_08);
    if (!((r_52_1 - r_52) < 13ull)) { r_3h = r_52_1; r_v4 = r_52; goto l_join_jf; }
    u8 r_bz = std_alloc_vec_Vec_grow_amortized_9634afabedddd7ee(a_1, 13ull);
    if (!r_bz) { r_e7 = 1u; goto l_arm_n5; }
    r_3h = ld64(r_08);
    r_v4 = ld64(r_rq);
l_join_jf:;
    r_dr = (r_v4 + 13ull);
    r_fx = ldp(a_1);
    r_2b = away(r_fx, r_v4);
    if (((u64)(uptr)r_2b - (u64)(uptr)((u8 *)g_static_253)) < 13ull) { r_bd = 0ull; goto l_join_p7; }
    mv13(r_2b, ((u8 *)g_static_253));
    goto l_arm_na;
l_join_p7:;
    st8((r_2b + (i64)(r_bd)), ld8((((u8 *)g_static_253) + (i64)(r_bd))));
    u64 r_c4 = (r_bd + 1ull);
    if (!(r_c4 == 13ull)) { r_bd = r_c4; goto l_join_p7; }
l_arm_na:;
    stp(a_1, r_fx);
    st64(r_rq, r_dr);
    st64(r_08, r_3h);
    struct s_i8_i8 r_zo = capnp_show_show_text_Text_push_number(a_1, r_bi);
    r_yu = r_zo;
    goto l_capnp_v4;
l_arm_n5:;
    struct s_i8_i8 t_fj = (struct s_i8_i8){ 1u, 0u };
    t_fj.f1 = r_e7;
    r_yu = t_fj;
l_capnp_v4:;
    if (!(r_yu.f0 == 0u)) goto l_arm_dn;
    r_bi_1 = (u64)a_3;
    r_52_2 = ld64(r_rq);
    if (r_52_2 > 0x3ffffafull) { r_e7_1 = 0u; goto l_arm_n5_1; }
    r_08_1 = away(a_1, 16ull);
    u64 r_52_3 = ld64(r_08_1);
    if (!((r_52_3 - r_52_2) < 17ull)) { r_5s = r_52_3; r_05 = r_52_2; goto l_join_9f; }
    u8 r_cx = std_alloc_vec_Vec_grow_amortized_9634afabedddd7ee(a_1, 17ull);
    if (!r_cx) { r_e7_1 = 1u; goto l_arm_n5_1; }
    r_5s = ld64(r_08_1);
    r_05 = ld64(r_rq);
l_join_9f:;
    r_br = (r_05 + 17ull);
    r_fx_1 = ldp(a_1);
    memset(r_rq, 0u, 16);
    r_2b_1 = away(r_fx_1, r_05);
    if (((u64)(uptr)r_2b_1 - (u64)(uptr)((u8 *)g_static_254)) < 17ull) { r_kn = 0ull; goto l_join_lh; }
    mv17(r_2b_1, ((u8 *)g_static_254));
    goto l_arm_na_1;
l_join_lh:;
    st8((r_2b_1 + (i64)(r_kn)), ld8((((u8 *)g_static_254) + (i64)(r_kn))));
    u64 r_c4_1 = (r_kn + 1ull);
    if (!(r_c4_1 == 17ull)) { r_kn = r_c4_1; goto l_join_lh; }
l_arm_na_1:;
    stp(a_1, r_fx_1);
    st64(r_rq, r_br);
    st64(r_08_1, r_5s);
    struct s_i8_i8 r_zo_1 = capnp_show_show_text_Text_push_number(a_1, r_bi_1);
    r_yu_1 = r_zo_1;
    goto l_capnp_v4_1;
l_arm_n5_1:;
    struct s_i8_i8 t_fj_1 = (struct s_i8_i8){ 1u, 0u };
    t_fj_1.f1 = r_e7_1;
    r_yu_1 = t_fj_1;
l_capnp_v4_1:;
    if (r_yu_1.f0 == 0u) goto l_arm_74;
    goto l_arm_dn_1;
l_arm_dn:;
    r_fu = r_yu.f1;
    r_vh = 1u;
    goto l_return_4x;
l_arm_74:;
    r_52_4 = ld64(r_rq);
    if (r_52_4 > 0x3ffffbfull) { r_fu = 0u; r_vh = 1u; goto l_return_4x; }
    r_08_2 = away(a_1, 16ull);
    u64 r_52_5 = ld64(r_08_2);
    if (!(r_52_5 == r_52_4)) { r_qd = r_52_5; r_cr = r_52_4; goto l_join_tk; }
    u8 r_av = std_alloc_vec_Vec_grow_amortized_9634afabedddd7ee(a_1, 1ull);
    if (!r_av) { r_fu = 1u; r_vh = 1u; goto l_return_4x; }
    r_qd = ld64(r_08_2);
    r_cr = ld64(r_rq);
l_join_tk:;
    u8 *r_fx_2 = ldp(a_1);
    st8(away(r_fx_2, r_cr), 44u);
    stp(a_1, r_fx_2);
    st64(r_rq, (r_cr + 1ull));
    st64(r_08_2, r_qd);
    r_fu = 0u;
    r_vh = 0u;
    goto l_return_4x;
l_arm_dn_1:;
    r_fu = r_yu_1.f1;
    r_vh = 1u;
l_return_4x:;
    struct s_i8_i8 r_3j = (struct s_i8_i8){ 0 };
    r_3j.f0 = r_vh;
    struct s_i8_i8 r_9n = r_3j;
    r_9n.f1 = r_fu;
    return r_9n;
}

/* capnp_show::show::json::write_struct_elements::<#5ccc1be374b2e488> */
static struct s_i8_i8 capnp_show_show_json_write_struct_elements_5ccc1be374b2e488(u8 *a_1, u16 a_2, u16 a_3, u32 a_4, u32 a_5, u8 *a_6)
{
    A(8) u8 slot_1[16];
    A(8) u8 slot_2[16];
    A(8) u8 slot_3[64];
    u64 r_eg;
    u64 r_qw;
    u32 r_5k;
    u32 r_5k_1;
    u8 *r_rq;
    u8 *r_08;
    u8 *r_h6;
    u8 *r_o8;
    u8 *r_we;
    u8 *r_lg;
    u32 r_68;
    u8 *r_x5;
    u8 *r_lk;
    u8 *r_89;
    u8 *r_c4;
    u8 *r_bk;
    u8 *r_6c;
    u8 *r_yf;
    u8 *r_2g;
    u8 *r_vp;
    u64 wide_7l;
    u64 indvars_su;
    u64 r_52;
    u64 r_qd;
    u64 r_cr;
    u64 r_au;
    u64 r_52_3;
    u64 r_co;
    u64 r_q5;
    struct s_i8_i8 r_v0;
    u64 r_52_5;
    u64 r_52_6;
    u8 r_fu;
    u8 r_vh;
    r_eg = (u64)ld8(a_1);
    mv16(slot_1, away(a_1, 8ull));
    r_qw = ld64(away(a_1, 24ull));
    mv16(slot_2, away(a_1, 32ull));
    r_5k = ld32(away(a_1, 48ull));
    r_5k_1 = ld32(away(a_1, 56ull));
    memset(slot_3, 0u, 64);
    if (a_4 == 0u) { r_fu = 0u; r_vh = 0u; goto l_return_4x; }
    r_rq = away(a_6, 8ull);
    r_08 = away(a_6, 16ull);
    r_h6 = away(a_6, 64ull);
    r_o8 = away(a_6, 88ull);
    r_we = away(a_6, 104ull);
    r_lg = away(a_6, 96ull);
    r_68 = ((u32)a_3 + (u32)a_2);
    r_x5 = (slot_3 + 8);
    r_lk = (slot_3 + 24);
    r_89 = (slot_3 + 32);
    r_c4 = (slot_3 + 48);
    r_bk = (slot_3 + 52);
    r_6c = (slot_3 + 56);
    r_yf = away(a_6, 80ull);
    r_2g = away(a_6, 72ull);
    r_vp = away(a_6, 112ull);
    wide_7l = (u64)a_4;
    indvars_su = 0ull;
    goto l_join_if;
l_loop_2y:;
    u64 indvars_r7 = (indvars_su + 1ull);
    if (indvars_r7 == wide_7l) { r_fu = 0u; r_vh = 0u; goto l_return_4x; }
    indvars_su = indvars_r7;
l_join_if:;
    if (indvars_su == 0ull) goto l_arm_gs;
    r_52 = ld64(r_rq);
    if (r_52 > 0x3ffffbfull) { r_fu = 0u; r_vh = 1u; goto l_return_4x; }
    u64 r_52_1 = ld64(r_08);
    if (!(r_52_1 == r_52)) { r_qd = r_52_1; r_cr = r_52; goto l_join_tk; }
    u8 r_av = std_alloc_vec_Vec_grow_amortized_9634afabedddd7ee(a_6, 1ull);
    if (!r_av) { r_fu = 1u; r_vh = 1u; goto l_return_4x; }
    r_qd = ld64(r_08);
    r_cr = ld64(r_rq);
l_join_tk:;
    u8 *r_fx = ldp(a_6);
    st8(away(r_fx, r_cr), 44u);
    stp(a_6, r_fx);
    st64(r_rq, (r_cr + 1ull));
    st64(r_08, r_qd);
l_arm_gs:;
    if (ld8(r_h6) == 0u) goto l_arm_74;
    u64 r_52_2 = ld64(r_lg);
    if (!(ld64(r_we) == r_52_2)) { r_au = r_52_2; goto l_join_qq; }
    u8 r_5t = std_alloc_vec_Vec_grow_amortized_e6560bd0eee8a70a(r_o8);
    if (!r_5t) { r_fu = 1u; r_vh = 1u; goto l_return_4x; }
    r_au = ld64(r_lg);
l_join_qq:;
    st64((ldp(r_o8) + (i64)((u64)(r_au << 3ull))), ((u64)(indvars_su << 32ull) | 1ull));
    st64(r_lg, (r_au + 1ull));
l_arm_74:;
    r_52_3 = ld64(r_rq);
    if (r_52_3 > 0x3ffffbfull) { r_fu = 0u; r_vh = 1u; goto l_return_4x; }
    u64 r_52_4 = ld64(r_08);
    if (!(r_52_4 == r_52_3)) { r_co = r_52_4; r_q5 = r_52_3; goto l_arm_df; }
    u8 r_av_1 = std_alloc_vec_Vec_grow_amortized_9634afabedddd7ee(a_6, 1ull);
    if (!r_av_1) { r_fu = 1u; r_vh = 1u; goto l_return_4x; }
    r_co = ld64(r_08);
    r_q5 = ld64(r_rq);
l_arm_df:;
    u8 *r_fx_1 = ldp(a_6);
    st8(away(r_fx_1, r_q5), 123u);
    stp(a_6, r_fx_1);
    st64(r_rq, (r_q5 + 1ull));
    st64(r_08, r_co);
    st64(slot_3, r_eg);
    mv16(r_x5, slot_1);
    st64(r_lk, r_qw);
    mv16(r_89, slot_2);
    st32(r_c4, ((r_68 * (u32)indvars_su) + r_5k));
    st32(r_bk, 0u);
    st32(r_6c, r_5k_1);
    r_v0 = capnp_show_show_json_write_sections_5ccc1be374b2e488(slot_3, a_2, a_3, a_5, a_6);
    if (!(r_v0.f0 == 0u)) goto l_arm_dn;
    r_52_5 = ld64(r_rq);
    if (!(ld8(r_h6) == 1u)) goto l_loop_2y;
    if (r_52_3 > ld64(r_yf)) goto l_arm_3v;
    if (ld64(r_2g) < r_52_5) goto l_capnp_lo;
l_arm_3v:;
    r_52_6 = ld64(r_lg);
    if (r_52_6 == 0ull) goto l_loop_2y;
    st64(r_lg, (r_52_6 + 0xffffffffffffffffull));
    goto l_loop_2y;
l_capnp_lo:;
    st64(r_vp, r_52_3);
    r_fu = 2u;
    r_vh = 1u;
    goto l_return_4x;
l_arm_dn:;
    r_fu = r_v0.f1;
    r_vh = 1u;
l_return_4x:;
    struct s_i8_i8 r_3j = (struct s_i8_i8){ 0 };
    r_3j.f0 = r_vh;
    struct s_i8_i8 r_9n = r_3j;
    r_9n.f1 = r_fu;
    return r_9n;
}

/* capnp_show::show::json::Json::write_refusal */
static struct s_i8_i8 capnp_show_show_json_Json_write_refusal(u8 *a_1, u8 *a_2, u64 a_3)
{
    u8 *r_rq;
    u64 r_52;
    u8 *r_08;
    u64 r_4b;
    u64 r_jh;
    u64 r_sb;
    u8 *r_fx;
    u8 *r_2b;
    u64 r_pk;
    u8 *r_4a;
    u64 r_uv;
    u64 r_0z;
    u64 r_zx;
    u8 *r_2b_1;
    u64 r_31;
    u8 *r_yy;
    u64 r_wc;
    u64 r_8f;
    u64 r_x4;
    u8 *r_2b_2;
    u64 r_nd;
    u8 r_fu;
    u8 r_vh;
    st8(away(a_1, 24ull), 0u);
    r_rq = away(a_1, 8ull);
    r_52 = ld64(r_rq);
    if (r_52 > 0x3ffffb5ull) { r_fu = 0u; r_vh = 1u; goto l_capnp_4x; }
    r_08 = away(a_1, 16ull);
    u64 r_52_1 = ld64(r_08);
    if (!((r_52_1 - r_52) < 11ull)) { r_4b = r_52_1; r_jh = r_52; goto l_join_12; }
    u8 r_pt = std_alloc_vec_Vec_grow_amortized_9634afabedddd7ee(a_1, 11ull);
    if (!r_pt) { r_fu = 1u; r_vh = 1u; goto l_capnp_4x; }
    r_4b = ld64(r_08);
    r_jh = ld64(r_rq);
l_join_12:;
    r_sb = (r_jh + 11ull);
    r_fx = ldp(a_1);
    r_2b = away(r_fx, r_jh);
    if (((u64)(uptr)r_2b - (u64)(uptr)((u8 *)g_static_256)) < 11ull) { r_pk = 0ull; goto l_join_yt; }
    mv11(r_2b, ((u8 *)g_static_256));
    goto l_arm_cq;
l_join_yt:;
    st8((r_2b + (i64)(r_pk)), ld8((((u8 *)g_static_256) + (i64)(r_pk))));
    u64 r_c4 = (r_pk + 1ull);
    if (!(r_c4 == 11ull)) { r_pk = r_c4; goto l_join_yt; }
l_arm_cq:;
    stp(a_1, r_fx);
    st64(r_rq, r_sb);
    st64(r_08, r_4b);
    if ((u8)((u8)(r_sb > 0x3ffffc0ull) | (u8)((0x3ffffb5ull - r_jh) < a_3))) { r_fu = 0u; r_vh = 1u; goto l_capnp_4x; }
    if (!(a_3 > (r_4b - r_sb))) { r_4a = r_fx; r_uv = r_4b; r_0z = r_sb; goto l_join_xu; }
    u8 r_7h = std_alloc_vec_Vec_grow_amortized_9634afabedddd7ee(a_1, a_3);
    if (!r_7h) { r_fu = 1u; r_vh = 1u; goto l_capnp_4x; }
    r_4a = ldp(a_1);
    r_uv = ld64(r_08);
    r_0z = ld64(r_rq);
l_join_xu:;
    r_zx = (r_0z + a_3);
    memset(r_rq, 0u, 16);
    r_2b_1 = away(r_4a, r_0z);
    if (((u64)(uptr)r_2b_1 - (u64)(uptr)a_2) < a_3) { r_31 = 0ull; goto l_join_sz; }
    memmove_or_none(r_2b_1, a_2, a_3);
    goto l_arm_pd;
l_join_sz:;
    st8((r_2b_1 + (i64)(r_31)), ld8((a_2 + (i64)(r_31))));
    u64 r_c4_1 = (r_31 + 1ull);
    if (!(r_c4_1 == a_3)) { r_31 = r_c4_1; goto l_join_sz; }
l_arm_pd:;
    stp(a_1, r_4a);
    st64(r_rq, r_zx);
    st64(r_08, r_uv);
    if (r_zx > 0x3ffffbeull) { r_fu = 0u; r_vh = 1u; goto l_capnp_4x; }
    if (!((r_uv - r_zx) < 2ull)) { r_yy = r_4a; r_wc = r_uv; r_8f = r_zx; goto l_join_aq; }
    u8 r_y4 = std_alloc_vec_Vec_grow_amortized_9634afabedddd7ee(a_1, 2ull);
    if (!r_y4) { r_fu = 1u; r_vh = 1u; goto l_capnp_4x; }
    r_yy = ldp(a_1);
    r_wc = ld64(r_08);
    r_8f = ld64(r_rq);
l_join_aq:;
    r_x4 = (r_8f + 2ull);
    r_2b_2 = away(r_yy, r_8f);
    if (((u64)(uptr)r_2b_2 - (u64)(uptr)((u8 *)g_static_241)) < 2ull) { r_nd = 0ull; goto l_join_h4; }
    st16(r_2b_2, 32034u);
    goto l_core_ga;
l_join_h4:;
    st8((r_2b_2 + (i64)(r_nd)), ld8((((u8 *)g_static_241) + (i64)(r_nd))));
    u64 r_c4_2 = (r_nd + 1ull);
    if (!(r_c4_2 == 2ull)) { r_nd = r_c4_2; goto l_join_h4; }
l_core_ga:;
    stp(a_1, r_yy);
    st64(r_rq, r_x4);
    st64(r_08, r_wc);
    r_fu = 0u;
    r_vh = 0u;
l_capnp_4x:;
    struct s_i8_i8 r_3j = (struct s_i8_i8){ 0 };
    r_3j.f0 = r_vh;
    struct s_i8_i8 r_9n = r_3j;
    r_9n.f1 = r_fu;
    return r_9n;
}

/* capnp_show::show::message::make_lines::<#9d3526b9b0726c59> */
void capnp_show_show_message_make_lines_9d3526b9b0726c59(u8 *a_1, u8 *a_2, u8 *a_3, u64 a_4, u64 a_5, u8 *a_6, u64 a_7, u8 *a_8)
{
    A(4) u8 slot_1[1];
    A(8) u8 slot_2[32];
    A(8) u8 slot_3[64];
    A(8) u8 slot_4[88];
    A(8) u8 slot_5[64];
    A(8) u8 slot_6[88];
    A(2) u8 slot_7[94];
    u8 *r_x5;
    u8 *r_gt;
    u8 *r_89;
    u8 *r_a8;
    u8 *r_6c;
    u8 *r_l1;
    u8 *r_x9;
    u8 *r_pi;
    u64 r_52;
    u64 r_52_1;
    u8 *r_zd;
    u8 *r_h8;
    u64 r_b0;
    u64 r_j1;
    u64 r_5q;
    u8 *r_2b;
    u64 r_5t;
    u8 r_e7;
    struct s_i8_i8 r_p7;
    u8 r_om;
    u8 r_ey;
    u64 r_52_3;
    u8 *r_zd_1;
    u64 r_0q;
    u64 r_qi;
    u64 r_sb;
    u8 *r_lz;
    u8 *r_2b_1;
    u64 r_un;
    u8 r_e7_1;
    struct s_i8_i8 r_p7_1;
    u8 *r_ch;
    u64 r_52_5;
    u8 *r_zd_2;
    u64 r_4v;
    u64 r_23;
    u64 r_5q_1;
    u8 *r_lz_1;
    u8 *r_2b_2;
    u64 r_zs;
    u8 r_e7_2;
    struct s_i8_i8 r_mv;
    u8 r_lk;
    u64 r_52_7;
    u8 *r_zd_3;
    u64 r_uc;
    u64 r_jc;
    u8 r_fe;
    u8 r_4z;
    u8 r_5m;
    u8 *r_c4_3;
    u8 *r_ch_1;
    u8 r_i9;
    u64 r_e3;
    u32 r_yf;
    u64 r_tn;
    u8 sink_ph;
    u8 r_cd;
    u8 r_r5;
    u8 r_r5_1;
    u64 r_38;
    u8 *r_c4_4;
    u32 r_z4_1;
    u32 r_z4_2;
    u16 r_xv;
    u16 r_f4;
    u32 r_yf_1;
    u8 *t_6c;
    u64 r_52_10;
    u8 *r_zd_4;
    u64 r_uc_1;
    u64 r_jc_1;
    u8 r_fe_1;
    u8 r_4z_1;
    u8 r_47_1;
    u64 r_52_12;
    u8 *r_zd_5;
    u64 r_af;
    u64 r_vv;
    u64 r_z4_3;
    u8 *r_lz_4;
    u8 *r_2b_3;
    u64 r_bv;
    u8 *r_zd_6;
    u64 r_at;
    u64 r_gh;
    u64 r_y6;
    u8 *r_lz_5;
    u8 *r_2b_4;
    u64 r_24;
    u8 r_kd;
    u64 t_tp = ld64(a_2);
    u8 r_dh = ld8(a_3);
    u64 r_qw = ld64(away(a_3, 8ull));
    memset(slot_7, 0u, 94);
    u8 r_b4 = (u8)((u8)((u8)(u64)(t_tp >> 8ull) & 1u) ^ 1u);
    stp(slot_6, slot_1);
    r_x5 = (slot_6 + 8);
    memset(r_x5, 0u, 16);
    st8((slot_6 + 24), 1u);
    r_gt = (slot_6 + 25);
    memset(r_gt, 0u, 7);
    r_89 = (slot_6 + 32);
    stp(r_89, slot_1);
    r_a8 = (slot_6 + 40);
    memset(r_a8, 0u, 16);
    r_6c = (slot_6 + 56);
    st64(r_6c, (u64)r_dh);
    st64((slot_6 + 64), r_qw);
    st64((slot_6 + 72), 0ull);
    r_l1 = (slot_6 + 80);
    st8(r_l1, r_b4);
    r_x9 = (slot_6 + 81);
    st8(r_x9, (u8)((u8)(u64)(t_tp >> 16ull) & 1u));
    st16((slot_6 + 82), 0u);
    r_pi = (slot_6 + 84);
    st32(r_pi, (u32)(u64)(t_tp >> 32ull));
    memset(slot_4, 0u, 88);
    memset((slot_5 + 24), 0u, 40);
    r_52 = ld64(away(a_8, 16ull));
    u8 r_47 = ld8(r_gt);
    if (!(r_47 == 0u)) { r_om = r_b4; r_ey = r_47; goto l_capnp_6o; }
    r_52_1 = ld64(r_x5);
    if (r_52_1 > 0x3ffffb8ull) { r_e7 = 0u; goto l_arm_n5; }
    r_zd = (slot_6 + 16);
    u64 r_52_2 = ld64(r_zd);
    if (!((r_52_2 - r_52_1) < 8ull)) { r_h8 = slot_1; r_b0 = r_52_2; r_j1 = r_52_1; goto l_join_xa; }
    u8 r_i4 = std_alloc_vec_Vec_grow_amortized_9634afabedddd7ee(slot_6, 8ull);
    if (!r_i4) { r_e7 = 1u; goto l_arm_n5; }
    r_h8 = ldp(slot_6);
    r_b0 = ld64(r_zd);
    r_j1 = ld64(r_x5);
l_join_xa:;
    r_5q = (r_j1 + 8ull);
    r_2b = away(r_h8, r_j1);
    if (((u64)(uptr)r_2b - (u64)(uptr)((u8 *)g_static_259)) < 8ull) { r_5t = 0ull; goto l_join_mi; }
    st64(r_2b, 0x206567617373656dull);
    goto l_arm_ay;
l_join_mi:;
    st8((r_2b + (i64)(r_5t)), ld8((((u8 *)g_static_259) + (i64)(r_5t))));
    u64 r_c4 = (r_5t + 1ull);
    if (!(r_c4 == 8ull)) { r_5t = r_c4; goto l_join_mi; }
l_arm_ay:;
    stp(slot_6, r_h8);
    st64(r_x5, r_5q);
    st64(r_zd, r_b0);
    struct s_i8_i8 r_32 = capnp_show_show_text_Text_push_number(slot_6, a_4);
    r_p7 = r_32;
    goto l_capnp_my;
l_arm_n5:;
    struct s_i8_i8 t_fj = (struct s_i8_i8){ 1u, 0u };
    t_fj.f1 = r_e7;
    r_p7 = t_fj;
l_capnp_my:;
    u8 r_kp = r_p7.f0;
    st8(r_gt, r_kp);
    st8((slot_6 + 26), r_p7.f1);
    r_om = ld8(r_l1);
    r_ey = r_kp;
l_capnp_6o:;
    if (!(u8)(r_om & 1)) { r_lk = r_ey; goto l_join_pz; }
    if (!(r_ey == 0u)) { r_5m = r_ey; goto l_capnp_ga; }
    r_52_3 = ld64(r_x5);
    if (r_52_3 > 0x3ffffb5ull) { r_e7_1 = 0u; goto l_arm_n5_1; }
    r_zd_1 = (slot_6 + 16);
    u64 r_52_4 = ld64(r_zd_1);
    if (!((r_52_4 - r_52_3) < 11ull)) { r_0q = r_52_4; r_qi = r_52_3; goto l_join_q0; }
    u8 r_ay = std_alloc_vec_Vec_grow_amortized_9634afabedddd7ee(slot_6, 11ull);
    if (!r_ay) { r_e7_1 = 1u; goto l_arm_n5_1; }
    r_0q = ld64(r_zd_1);
    r_qi = ld64(r_x5);
l_join_q0:;
    r_sb = (r_qi + 11ull);
    r_lz = ldp(slot_6);
    r_2b_1 = away(r_lz, r_qi);
    if (((u64)(uptr)r_2b_1 - (u64)(uptr)((u8 *)g_static_260)) < 11ull) { r_un = 0ull; goto l_join_lt; }
    mv11(r_2b_1, ((u8 *)g_static_260));
    goto l_arm_01;
l_join_lt:;
    st8((r_2b_1 + (i64)(r_un)), ld8((((u8 *)g_static_260) + (i64)(r_un))));
    u64 r_c4_1 = (r_un + 1ull);
    if (!(r_c4_1 == 11ull)) { r_un = r_c4_1; goto l_join_lt; }
l_arm_01:;
    stp(slot_6, r_lz);
    st64(r_x5, r_sb);
    st64(r_zd_1, r_0q);
    struct s_i8_i8 r_ik = capnp_show_show_text_Text_push_number(slot_6, a_5);
    r_p7_1 = r_ik;
    goto l_capnp_my_1;
l_arm_n5_1:;
    struct s_i8_i8 t_fj_1 = (struct s_i8_i8){ 1u, 0u };
    t_fj_1.f1 = r_e7_1;
    r_p7_1 = t_fj_1;
l_capnp_my_1:;
    u8 r_kp_1 = r_p7_1.f0;
    st8(r_gt, r_kp_1);
    r_ch = (slot_6 + 26);
    st8(r_ch, r_p7_1.f1);
    if (!(r_kp_1 == 0u)) { r_5m = r_kp_1; goto l_capnp_ga; }
    r_52_5 = ld64(r_x5);
    if (r_52_5 > 0x3ffffb8ull) { r_e7_2 = 0u; goto l_arm_n5_2; }
    r_zd_2 = (slot_6 + 16);
    u64 r_52_6 = ld64(r_zd_2);
    if (!((r_52_6 - r_52_5) < 8ull)) { r_4v = r_52_6; r_23 = r_52_5; goto l_join_3c; }
    u8 r_i4_1 = std_alloc_vec_Vec_grow_amortized_9634afabedddd7ee(slot_6, 8ull);
    if (!r_i4_1) { r_e7_2 = 1u; goto l_arm_n5_2; }
    r_4v = ld64(r_zd_2);
    r_23 = ld64(r_x5);
l_join_3c:;
    r_5q_1 = (r_23 + 8ull);
    r_lz_1 = ldp(slot_6);
    r_2b_2 = away(r_lz_1, r_23);
    if (((u64)(uptr)r_2b_2 - (u64)(uptr)((u8 *)g_static_221)) < 8ull) { r_zs = 0ull; goto l_join_j7; }
    st64(r_2b_2, 0x207364726f77202cull);
    goto l_arm_6h;
l_join_j7:;
    st8((r_2b_2 + (i64)(r_zs)), ld8((((u8 *)g_static_221) + (i64)(r_zs))));
    u64 r_c4_2 = (r_zs + 1ull);
    if (!(r_c4_2 == 8ull)) { r_zs = r_c4_2; goto l_join_j7; }
l_arm_6h:;
    stp(slot_6, r_lz_1);
    st64(r_x5, r_5q_1);
    st64(r_zd_2, r_4v);
    struct s_i8_i8 r_xu = capnp_show_show_text_Text_push_number(slot_6, r_52);
    r_mv = r_xu;
    goto l_capnp_sw;
l_arm_n5_2:;
    struct s_i8_i8 t_fj_2 = (struct s_i8_i8){ 1u, 0u };
    t_fj_2.f1 = r_e7_2;
    r_mv = t_fj_2;
l_capnp_sw:;
    u8 r_kp_2 = r_mv.f0;
    st8(r_gt, r_kp_2);
    st8(r_ch, r_mv.f1);
    r_lk = r_kp_2;
l_join_pz:;
    if (!(r_lk == 0u)) { r_5m = r_lk; goto l_capnp_ga; }
    r_52_7 = ld64(r_x5);
    if (r_52_7 > 0x3ffffbfull) { r_fe = 0u; r_4z = 1u; goto l_capnp_x2; }
    r_zd_3 = (slot_6 + 16);
    u64 r_52_8 = ld64(r_zd_3);
    if (!(r_52_8 == r_52_7)) { r_uc = r_52_8; r_jc = r_52_7; goto l_join_1m; }
    u8 r_9h = std_alloc_vec_Vec_grow_amortized_9634afabedddd7ee(slot_6, 1ull);
    if (!r_9h) { r_fe = 1u; r_4z = 1u; goto l_capnp_x2; }
    r_uc = ld64(r_zd_3);
    r_jc = ld64(r_x5);
l_join_1m:;
    u8 *r_lz_2 = ldp(slot_6);
    st8(away(r_lz_2, r_jc), 10u);
    stp(slot_6, r_lz_2);
    st64(r_x5, (r_jc + 1ull));
    st64(r_zd_3, r_uc);
    r_fe = 0u;
    r_4z = 0u;
l_capnp_x2:;
    st8(r_gt, r_4z);
    st8((slot_6 + 26), r_fe);
    r_5m = r_4z;
l_capnp_ga:;
    if (a_7 == 0ull) goto l_capnp_d8;
    r_c4_3 = (slot_6 + 48);
    r_ch_1 = (slot_6 + 26);
    r_i9 = r_5m;
    r_e3 = 0ull;
l_join_mi_1:;
    r_yf = ld32(away(a_6, (u64)(r_e3 << 2ull)));
    if (!(r_i9 == 0u)) { r_cd = r_i9; goto l_capnp_98; }
    u64 r_52_9 = ld64(r_a8);
    if (!(ld64(r_c4_3) == r_52_9)) { r_tn = r_52_9; goto l_join_48; }
    u8 r_qh = std_alloc_vec_Vec_grow_amortized_e6560bd0eee8a70a(r_89);
    if (!r_qh) { sink_ph = 1u; goto l_capnp_ct; }
    r_tn = ld64(r_a8);
l_join_48:;
    st64((ldp(r_89) + (i64)((u64)(r_tn << 3ull))), (u64)((u64)r_yf << 32ull));
    st64(r_a8, (r_tn + 1ull));
    sink_ph = 0u;
l_capnp_ct:;
    st8(r_gt, sink_ph);
    st8(r_ch_1, sink_ph);
    r_cd = sink_ph;
l_capnp_98:;
    u64 r_36 = (r_e3 + 1ull);
    if (!(r_36 == a_7)) { r_i9 = r_cd; r_e3 = r_36; goto l_join_mi_1; }
l_capnp_d8:;
    capnp_messages_messages_path_read_part_9d3526b9b0726c59(slot_4, a_8, a_6, a_7, r_6c);
    r_r5 = ld8((slot_4 + 8));
    if (!(ld8(slot_4) == 0u)) goto l_switch_82;
    r_r5_1 = ld8((slot_4 + 16));
    if (!(r_r5 == 0u)) goto l_arm_h8;
    u32 r_z4 = ld32((slot_4 + 72));
    st64(slot_5, (u64)r_r5_1);
    mv16((slot_5 + 8), (slot_4 + 24));
    mv32((slot_5 + 24), (slot_4 + 40));
    st32((slot_5 + 56), r_z4);
    capnp_show_show_lines_show_pointer_5ccc1be374b2e488(slot_5, ld32(r_pi), slot_6);
    goto l_capnp_m3;
l_arm_h8:;
    r_38 = ld64((slot_4 + 40));
    r_c4_4 = (slot_4 + 48);
    r_z4_1 = ld32((slot_4 + 64));
    r_z4_2 = ld32((slot_4 + 72));
    r_xv = ld16((slot_4 + 80));
    r_f4 = ld16((slot_4 + 82));
    r_yf_1 = ld32(r_pi);
    t_6c = (slot_3 + 56);
    u32 r_uq = ld32((slot_4 + 68));
    st64(t_6c, 0ull);
    capnp_show_show_lines_Lines_write_path(slot_6);
    st64(slot_2, r_38);
    mv16((slot_2 + 8), r_c4_4);
    st32((slot_2 + 24), r_z4_1);
    st32((slot_2 + 28), r_uq);
    capnp_show_show_lines_Lines_write_struct(slot_6, slot_2, r_xv, r_f4);
    if (!(ld8(r_gt) == 0u)) goto l_capnp_hr;
    r_52_10 = ld64(r_x5);
    if (r_52_10 > 0x3ffffbfull) { r_fe_1 = 0u; r_4z_1 = 1u; goto l_capnp_x2_1; }
    r_zd_4 = (slot_6 + 16);
    u64 r_52_11 = ld64(r_zd_4);
    if (!(r_52_11 == r_52_10)) { r_uc_1 = r_52_11; r_jc_1 = r_52_10; goto l_join_1m_1; }
    u8 r_9h_1 = std_alloc_vec_Vec_grow_amortized_9634afabedddd7ee(slot_6, 1ull);
    if (!r_9h_1) { r_fe_1 = 1u; r_4z_1 = 1u; goto l_capnp_x2_1; }
    r_uc_1 = ld64(r_zd_4);
    r_jc_1 = ld64(r_x5);
l_join_1m_1:;
    u8 *r_lz_3 = ldp(slot_6);
    st8(away(r_lz_3, r_jc_1), 10u);
    stp(slot_6, r_lz_3);
    st64(r_x5, (r_jc_1 + 1ull));
    st64(r_zd_4, r_uc_1);
    r_fe_1 = 0u;
    r_4z_1 = 0u;
l_capnp_x2_1:;
    st8(r_gt, r_4z_1);
    st8((slot_6 + 26), r_fe_1);
l_capnp_hr:;
    st64(slot_3, (u64)r_r5_1);
    mv16((slot_3 + 8), (slot_4 + 24));
    st64((slot_3 + 24), r_38);
    mv16((slot_3 + 32), r_c4_4);
    st32((slot_3 + 48), (r_z4_1 + (u32)r_xv));
    st32((slot_3 + 52), 0u);
    st32(t_6c, r_z4_2);
    capnp_show_show_lines_show_pointers_5ccc1be374b2e488(slot_3, (u32)r_f4, 0u, r_yf_1, slot_6);
    goto l_capnp_m3;
l_switch_82:;
    u64 switch_xq = ld64((((u8 *)switch_table_capnp_canon_inputs_report_refusal_51) + (i64)(8 * (u64)r_r5)));
    u8 *switch_mb = ldp((((u8 *)switch_table_capnp_canon_inputs_report_refusal_50) + (i64)(8 * (u64)r_r5)));
    capnp_show_show_lines_Lines_write_path(slot_6);
    capnp_show_show_lines_Lines_write_refusal(slot_6, switch_mb, switch_xq);
l_capnp_m3:;
    r_47_1 = ld8(r_gt);
    switch (r_47_1) {
    case 1u: goto l_arm_rj;
    case 0u: goto l_arm_sf;
    default: goto l_arm_st;
    }
l_arm_rj:;
    if (!(ld8((slot_6 + 26)) == 0u)) goto l_arm_st;
    r_52_12 = ld64(r_x5);
    if (!(u8)(ld8(r_x9) & 1)) goto l_join_tl;
    if (r_52_12 > 0x3ffffe5ull) goto l_arm_st;
    r_zd_5 = (slot_6 + 16);
    u64 r_52_13 = ld64(r_zd_5);
    if (!((r_52_13 - r_52_12) < 27ull)) { r_af = r_52_13; r_vv = r_52_12; goto l_join_ck; }
    u8 r_m2 = std_alloc_vec_Vec_grow_amortized_9634afabedddd7ee(slot_6, 27ull);
    if (!r_m2) goto l_arm_st;
    r_af = ld64(r_zd_5);
    r_vv = ld64(r_x5);
l_join_ck:;
    r_z4_3 = (r_vv + 27ull);
    r_lz_4 = ldp(slot_6);
    r_2b_3 = away(r_lz_4, r_vv);
    if (((u64)(uptr)r_2b_3 - (u64)(uptr)((u8 *)g_static_291)) < 27ull) { r_bv = 0ull; goto l_join_fh; }
    mv27(r_2b_3, ((u8 *)g_static_291));
    goto l_core_pu;
l_join_fh:;
    st8((r_2b_3 + (i64)(r_bv)), ld8((((u8 *)g_static_291) + (i64)(r_bv))));
    u64 r_c4_5 = (r_bv + 1ull);
    if (!(r_c4_5 == 27ull)) { r_bv = r_c4_5; goto l_join_fh; }
l_core_pu:;
    stp(slot_6, r_lz_4);
    st64(r_x5, r_z4_3);
    st64(r_zd_5, r_af);
    goto l_arm_sf;
l_join_tl:;
    if (r_52_12 > 0x3ffffe9ull) goto l_arm_st;
    r_zd_6 = (slot_6 + 16);
    u64 r_52_14 = ld64(r_zd_6);
    if (!((r_52_14 - r_52_12) < 23ull)) { r_at = r_52_14; r_gh = r_52_12; goto l_join_e5; }
    u8 r_wl = std_alloc_vec_Vec_grow_amortized_9634afabedddd7ee(slot_6, 23ull);
    if (!r_wl) goto l_arm_st;
    r_at = ld64(r_zd_6);
    r_gh = ld64(r_x5);
l_join_e5:;
    r_y6 = (r_gh + 23ull);
    r_lz_5 = ldp(slot_6);
    r_2b_4 = away(r_lz_5, r_gh);
    if (((u64)(uptr)r_2b_4 - (u64)(uptr)((u8 *)g_static_292)) < 23ull) { r_24 = 0ull; goto l_join_hw; }
    mv23(r_2b_4, ((u8 *)g_static_292));
    goto l_core_pu_1;
l_join_hw:;
    st8((r_2b_4 + (i64)(r_24)), ld8((((u8 *)g_static_292) + (i64)(r_24))));
    u64 r_c4_6 = (r_24 + 1ull);
    if (!(r_c4_6 == 23ull)) { r_24 = r_c4_6; goto l_join_hw; }
l_core_pu_1:;
    stp(slot_6, r_lz_5);
    st64(r_x5, r_y6);
    st64(r_zd_6, r_at);
l_arm_sf:;
    memcpy((slot_7 + 6), slot_6, 88);
    r_kd = 0u;
    goto l_join_0b;
l_arm_st:;
    if (ld64((slot_6 + 16)) == 0ull) goto l_std_et;
    rattle_dealloc(ldp(slot_6));
l_std_et:;
    if (ld64((slot_6 + 48)) == 0ull) { r_kd = r_47_1; goto l_join_0b; }
    rattle_dealloc(ldp(r_89));
    r_kd = r_47_1;
l_join_0b:;
    st8(a_1, r_kd);
    st8(away(a_1, 1ull), 0u);
    memcpy(away(a_1, 8ull), (slot_7 + 6), 88);
    return;
}

/* capnp_show::show::lines::show_pointer::<#5ccc1be374b2e488> */
static void capnp_show_show_lines_show_pointer_5ccc1be374b2e488(u8 *a_1, u32 a_2, u8 *a_3)
{
    A(8) u8 slot_1[1024];
    A(8) u8 slot_2[64];
    A(8) u8 slot_3[64];
    A(8) u8 slot_4[64];
    u8 r_dh;
    u64 r_eg;
    u8 *r_rv;
    u64 r_qw;
    u64 r_qw_1;
    u8 *r_rv_1;
    u64 r_qw_2;
    u32 r_5k;
    u32 r_5k_1;
    u8 *r_yf;
    u64 r_24;
    u64 r_qw_3;
    u8 *r_q6;
    u8 r_dd;
    u8 *r_rq;
    u64 r_52;
    u8 *r_08;
    u64 r_0s;
    u64 r_nq;
    u64 r_xe;
    u8 *r_fx;
    u8 *r_2b;
    u64 r_95;
    u8 r_1e;
    u8 r_6i;
    u8 r_lk;
    u8 *r_rq_1;
    u64 r_52_2;
    u8 *r_08_1;
    u64 r_y1;
    u64 r_pz;
    u64 r_5b;
    u8 *r_fx_1;
    u8 *r_2b_1;
    u64 r_0e;
    u8 r_fo;
    u8 r_go;
    u8 *r_q6_1;
    u8 *r_r2;
    u64 r_24_1;
    u64 r_gw;
    u64 r_qw_4;
    u8 t_pa;
    u64 r_lc;
    u64 r_nb;
    u64 r_yz;
    u32 r_nz;
    u32 r_tc;
    u64 r_l8;
    u64 r_3g;
    u64 r_n9;
    u8 *r_8d;
    u64 r_ep;
    u64 r_y6;
    u64 r_lc_1;
    u8 *r_h6;
    u64 r_52_4;
    u8 switch_wl;
    u64 r_ij;
    u64 r_c4_2;
    u64 r_24_2;
    u64 r_gw_1;
    u8 *r_h6_1;
    u64 r_52_5;
    u64 r_eh;
    u32 t_c8;
    u64 r_ep_1;
    u64 r_y6_1;
    u32 r_12;
    u32 r_az;
    u32 r_68;
    u64 r_c0;
    u8 *r_h6_2;
    u64 r_52_6;
    u32 r_ll;
    u32 r_29;
    u16 r_py_1;
    u16 r_pz_1;
    u64 r_c0_1;
    u32 r_12_1;
    u8 *r_h6_3;
    u64 r_52_7;
    u8 *r_h6_4;
    u64 r_52_8;
    u64 r_qs;
    u64 r_c6;
    u8 *r_h6_5;
    u64 r_52_9;
    u64 r_2g_1;
    u64 r_ef;
    u64 r_ep_2;
    u16 r_s5;
    u8 *r_rq_2;
    u64 r_52_10;
    u8 *r_08_2;
    u64 r_af;
    u64 r_rf;
    u64 r_pk;
    u8 *r_fx_2;
    u8 *r_2b_2;
    u64 r_ol;
    u8 r_1e_1;
    u8 r_6i_1;
    u8 *r_rq_3;
    u64 r_52_12;
    u8 *r_08_3;
    u64 r_yi;
    u64 r_xi;
    u64 r_4y;
    u8 *r_fx_3;
    u8 *r_2b_3;
    u64 r_he;
    u8 r_e7;
    struct s_i8_i8 r_o6;
    u8 r_ah;
    u64 r_2b_4;
    u8 *r_2o;
    u32 r_4b;
    u32 r_12_2;
    u8 *r_rq_4;
    u64 r_52_14;
    u8 *r_08_4;
    u64 r_bu;
    u64 r_tk;
    u64 r_5q;
    u8 *r_fx_4;
    u8 *r_2b_5;
    u64 r_il;
    u8 r_e7_1;
    struct s_i8_i8 r_o6_1;
    u8 r_kp;
    u8 *r_i8;
    u64 r_52_16;
    u8 *r_08_5;
    u64 r_8e;
    u64 r_ue;
    u64 r_hc;
    u8 *r_fx_5;
    u8 *r_2b_6;
    u64 r_e1;
    u8 r_i7;
    u8 r_w0;
    u8 *r_ud;
    u64 a_5j;
    u8 *r_rq_5;
    u64 r_52_19;
    u8 *r_08_6;
    u64 r_c0_2;
    u64 r_54;
    u64 r_x4;
    u8 *r_fx_6;
    u8 *r_2b_7;
    u64 r_y8;
    u8 r_1e_2;
    u8 r_6i_2;
    u64 r_qd;
    u8 *r_xw;
    u64 r_38_1;
    u8 r_ux;
    u64 r_dq;
    u8 r_47;
    u8 r_17;
    u64 r_i2;
    u64 r_56;
    u8 *r_i8_1;
    u8 *r_rq_6;
    u64 r_52_21;
    u8 *r_08_7;
    u64 r_y1_1;
    u64 r_pz_2;
    u64 r_5b_1;
    u8 *r_fx_7;
    u8 *r_2b_8;
    u64 r_51;
    u8 r_i7_1;
    u8 r_w0_1;
    u8 r_26;
    u8 *r_rq_7;
    u64 r_52_23;
    u8 *r_08_8;
    u64 r_20;
    u64 r_j8;
    u8 r_1e_3;
    u8 r_6i_3;
    u8 *r_rq_8;
    u8 *r_08_9;
    u8 *r_x9;
    u64 r_tc_1;
    u64 a_3q;
    u64 r_pt;
    u64 r_yb;
    u64 r_52_25;
    u64 r_kp_2;
    u64 r_ai;
    u64 r_5q_1;
    u8 *r_fx_9;
    u8 *r_i8_2;
    u8 r_tz;
    u8 *r_iq;
    u64 r_a3;
    u64 r_bp;
    u8 r_ws;
    u8 r_ak;
    u64 r_gw_2;
    u8 *r_rq_9;
    u8 *r_08_10;
    u8 *r_i8_3;
    u64 wide_v1;
    u64 indvars_x9;
    u64 i_0a;
    u8 *static_fj;
    u32 t_nk;
    u32 r_st;
    u64 r_24_3;
    u64 r_de;
    u64 r_zg_1;
    u64 r_52_27;
    u64 r_4b_1;
    u64 r_19;
    u64 r_qh;
    u8 *r_fx_10;
    u8 *r_2b_9;
    u64 r_es;
    u8 r_e7_2;
    struct s_i8_i8 r_su;
    u8 r_9o;
    u64 r_52_29;
    u64 r_20_1;
    u64 r_j8_1;
    u8 r_ws_1;
    u8 r_ak_1;
    u8 *r_rq_10;
    u64 r_52_31;
    u8 *r_08_11;
    u64 r_kz;
    u64 r_wh;
    u64 r_ob;
    u8 *r_fx_12;
    u8 *r_2b_10;
    u64 r_di;
    u8 r_e7_3;
    struct s_i8_i8 r_o6_2;
    u8 r_kp_4;
    u8 *r_i8_4;
    u64 r_52_33;
    u8 *r_08_12;
    u64 r_8e_1;
    u64 r_ue_1;
    u64 r_hc_1;
    u8 *r_fx_13;
    u8 *r_2b_11;
    u64 r_e1_1;
    u8 r_i7_2;
    u8 r_w0_2;
    u8 *r_rq_11;
    u64 r_52_36;
    u8 *r_08_13;
    u64 r_wv;
    u64 r_9w;
    u64 r_wr;
    u8 *r_fx_14;
    u8 *r_2b_12;
    u64 r_c2;
    u8 r_e7_4;
    struct s_i8_i8 r_o6_3;
    u8 r_kp_5;
    u8 *r_i8_5;
    u64 r_52_38;
    u8 *r_08_14;
    u64 r_8e_2;
    u64 r_ue_2;
    u64 r_hc_2;
    u8 *r_fx_15;
    u8 *r_2b_13;
    u64 r_e1_2;
    u8 r_i7_3;
    u8 r_w0_3;
    u16 r_zg;
    u8 r_co;
    u32 r_e0;
    u32 r_sq;
    u32 r_ls;
    u32 r_7q;
    u64 r_6l;
    u8 *r_u9;
    u64 r_fk;
    u8 *r_rq_12;
    u64 r_52_41;
    u8 *r_08_15;
    u64 r_w4;
    u64 r_61;
    u8 r_fo_1;
    u8 r_go_1;
    u16 r_t8;
    u32 r_mx;
    u32 r_az_1;
    u32 r_00;
    u32 r_68_1;
    u8 *r_x5;
    u8 *r_zd;
    u8 *r_lk_1;
    u8 *r_nk;
    u8 *r_xm;
    u8 *r_t9;
    u8 *r_su_1;
    u8 *r_i8_6;
    u8 *r_rq_13;
    u8 *r_08_16;
    u8 *r_x5_1;
    u8 *r_zd_1;
    u8 *r_lk_2;
    u8 *r_89;
    u8 *r_a8;
    u8 *r_c4_16;
    u8 *r_bk;
    u8 *r_6c;
    u64 wide_v1_1;
    u64 indvars_e9;
    u32 r_zy;
    u64 r_mh;
    u8 sink_ku;
    u64 r_52_44;
    u64 r_w4_1;
    u64 r_61_1;
    u8 r_i7_4;
    u8 r_w0_4;
    u64 r_52_46;
    u64 r_50;
    u64 r_k2;
    u8 *r_os;
    r_dh = ld8(a_1);
    r_eg = (u64)r_dh;
    r_rv = ldp(away(a_1, 8ull));
    r_qw = ld64(away(a_1, 16ull));
    r_qw_1 = ld64(away(a_1, 24ull));
    r_rv_1 = ldp(away(a_1, 32ull));
    r_qw_2 = ld64(away(a_1, 40ull));
    r_5k = ld32(away(a_1, 48ull));
    r_5k_1 = ld32(away(a_1, 56ull));
    capnp_show_show_lines_Lines_write_path(a_3);
    r_yf = away(a_3, 80ull);
    if (!(u8)(ld8(r_yf) & 1)) goto l_capnp_mn;
    capnp_show_show_lines_Lines_write_place(a_3, r_qw_1, r_5k);
    r_24 = (u64)r_5k;
    if (!((u64)(r_qw_2 >> 3ull) > r_24)) goto l_capnp_mn;
    r_qw_3 = ld64(away(r_rv_1, (u64)(r_24 << 3ull)));
    if (!((r_qw_3 & 3ull) == 2ull)) goto l_capnp_mn;
    r_q6 = away(a_3, 25ull);
    r_dd = ld8(r_q6);
    if ((r_qw_3 & 4ull) == 0ull) { r_lk = r_dd; goto l_join_pz; }
    if (!(r_dd == 0u)) goto l_capnp_0q;
    r_rq = away(a_3, 8ull);
    r_52 = ld64(r_rq);
    if (r_52 > 0x3ffffb9ull) { r_1e = 0u; r_6i = 1u; goto l_capnp_vj; }
    r_08 = away(a_3, 16ull);
    u64 r_52_1 = ld64(r_08);
    if (!((r_52_1 - r_52) < 7ull)) { r_0s = r_52_1; r_nq = r_52; goto l_join_me; }
    u8 r_f5 = std_alloc_vec_Vec_grow_amortized_9634afabedddd7ee(a_3, 7ull);
    if (!r_f5) { r_1e = 1u; r_6i = 1u; goto l_capnp_vj; }
    r_0s = ld64(r_08);
    r_nq = ld64(r_rq);
l_join_me:;
    r_xe = (r_nq + 7ull);
    r_fx = ldp(a_3);
    r_2b = away(r_fx, r_nq);
    if (((u64)(uptr)r_2b - (u64)(uptr)((u8 *)g_static_269)) < 7ull) { r_95 = 0ull; goto l_join_f8; }
    mv7(r_2b, ((u8 *)g_static_269));
    goto l_core_ga;
l_join_f8:;
    st8((r_2b + (i64)(r_95)), ld8((((u8 *)g_static_269) + (i64)(r_95))));
    u64 r_c4 = (r_95 + 1ull);
    if (!(r_c4 == 7ull)) { r_95 = r_c4; goto l_join_f8; }
l_core_ga:;
    stp(a_3, r_fx);
    st64(r_rq, r_xe);
    st64(r_08, r_0s);
    r_1e = 0u;
    r_6i = 0u;
l_capnp_vj:;
    st8(r_q6, r_6i);
    st8(away(a_3, 26ull), r_1e);
    r_lk = r_6i;
l_join_pz:;
    if (!(r_lk == 0u)) goto l_capnp_0q;
    r_rq_1 = away(a_3, 8ull);
    r_52_2 = ld64(r_rq_1);
    if (r_52_2 > 0x3ffffbcull) { r_fo = 0u; r_go = 1u; goto l_capnp_1e; }
    r_08_1 = away(a_3, 16ull);
    u64 r_52_3 = ld64(r_08_1);
    if (!((r_52_3 - r_52_2) < 4ull)) { r_y1 = r_52_3; r_pz = r_52_2; goto l_join_tt; }
    u8 r_t3 = std_alloc_vec_Vec_grow_amortized_9634afabedddd7ee(a_3, 4ull);
    if (!r_t3) { r_fo = 1u; r_go = 1u; goto l_capnp_1e; }
    r_y1 = ld64(r_08_1);
    r_pz = ld64(r_rq_1);
l_join_tt:;
    r_5b = (r_pz + 4ull);
    r_fx_1 = ldp(a_3);
    r_2b_1 = away(r_fx_1, r_pz);
    if (((u64)(uptr)r_2b_1 - (u64)(uptr)((u8 *)g_static_270)) < 4ull) { r_0e = 0ull; goto l_join_rc; }
    st32(r_2b_1, 0x72616620u);
    goto l_core_ga_1;
l_join_rc:;
    st8((r_2b_1 + (i64)(r_0e)), ld8((((u8 *)g_static_270) + (i64)(r_0e))));
    u64 r_c4_1 = (r_0e + 1ull);
    if (!(r_c4_1 == 4ull)) { r_0e = r_c4_1; goto l_join_rc; }
l_core_ga_1:;
    stp(a_3, r_fx_1);
    st64(r_rq_1, r_5b);
    st64(r_08_1, r_y1);
    r_fo = 0u;
    r_go = 0u;
l_capnp_1e:;
    st8(r_q6, r_go);
    st8(away(a_3, 26ull), r_fo);
l_capnp_0q:;
    capnp_show_show_lines_Lines_write_place(a_3, (u64)(r_qw_3 >> 32ull), (u32)((u32)r_qw_3 >> 3u));
l_capnp_mn:;
    r_q6_1 = away(a_3, 25ull);
    if (!(u8)(ld8(r_q6_1) & 1)) goto l_join_b0;
l_common_68:;
    return;
l_join_b0:;
    r_r2 = away(a_3, 56ull);
    r_24_1 = (u64)r_5k;
    r_gw = (u64)(r_qw_2 >> 3ull);
    if (!(r_gw > r_24_1)) goto l_then_1y;
    r_qw_4 = ld64(away(r_rv_1, (u64)(r_24_1 << 3ull)));
    if (r_qw_4 == 0ull) goto l_then_1y;
    memset(slot_1, 0u, 56);
    t_pa = (r_dh != 0u);
    if (t_pa) goto l_capnp_sm;
    u8 *r_2g = away(a_3, 72ull);
    st64(r_2g, uadd_sat64(ld64(r_2g), 1ull));
    if ((r_qw_4 & 3ull) == 2ull) goto l_capnp_h9;
    goto l_join_bd;
l_capnp_sm:;
    if (!((r_qw_4 & 3ull) == 2ull)) goto l_join_bd;
    st32((slot_1 + 8), 32u);
    r_2g_1 = ld64((slot_1 + 8));
    goto l_capnp_8g;
l_join_bd:;
    u64 r_m6 = ((u64)(r_qw_4 >> 2ull) & 0x3fffffffull);
    r_lc = ((r_24_1 + 1ull) + r_m6);
    r_nb = (r_gw & 0xffffffffull);
    if (!(r_m6 < 0x20000000ull)) goto l_else_70;
    if (r_lc > r_nb) { r_2g_1 = 23ull; goto l_capnp_8g; }
    r_yz = r_lc;
    goto l_capnp_i5;
l_else_70:;
    u64 r_3o = (r_lc + 0xffffffffc0000000ull);
    if ((r_lc < 0x40000000ull) ? 1u : (r_3o > r_nb)) { r_2g_1 = 23ull; goto l_capnp_8g; }
    r_yz = r_3o;
l_capnp_i5:;
    r_nz = 0u;
    r_tc = (u32)r_yz;
    r_l8 = r_qw_1;
    r_3g = r_qw_4;
    r_n9 = r_qw_2;
    r_8d = r_rv_1;
    goto l_arm_s6;
l_capnp_h9:;
    capnp_pointers_source_follow_far_5ccc1be374b2e488(slot_1, r_rv, r_qw_4, r_r2);
    u64 r_38 = ld64((slot_1 + 8));
    if (ld8(slot_1) == 0u) { r_nz = ld32((slot_1 + 44)); r_tc = ld32((slot_1 + 40)); r_l8 = ld64((slot_1 + 16)); r_3g = r_38; r_n9 = ld64((slot_1 + 32)); r_8d = ((u8 *)(uptr)ld64((slot_1 + 24))); goto l_arm_s6; }
    r_ef = r_38;
    goto l_capnp_68;
l_arm_s6:;
    switch ((u8)((u8)r_3g & 3u)) {
    case 0u: goto l_arm_xn;
    case 1u: goto l_arm_z2;
    case 2u: { r_k2 = 25ull; r_os = ((u8 *)g_static_146); goto l_capnp_ew; }
    case 3u: goto l_capnp_tl;
    default: goto l_default_e1;
    }
l_arm_xn:;
    r_ep = (u64)(r_3g >> 32ull);
    r_y6 = (u64)(r_3g >> 48ull);
    if ((i32)r_5k_1 < (i32)1u) { r_k2 = 40ull; r_os = ((u8 *)g_static_159); goto l_capnp_ew; }
    r_lc_1 = ((r_ep & 65535ull) + r_y6);
    if (((u64)(r_n9 >> 3ull) & 0xffffffffull) < (r_lc_1 + (u64)r_tc)) { r_k2 = 33ull; r_os = ((u8 *)g_static_156); goto l_capnp_ew; }
    if (t_pa) goto l_arm_mf;
    if (!(ld8(r_r2) == 1u)) goto l_arm_mf;
    r_h6 = away(a_3, 64ull);
    r_52_4 = ld64(r_h6);
    if (r_52_4 < r_lc_1) { r_k2 = 17ull; r_os = ((u8 *)g_static_163); goto l_capnp_ew; }
    st64(r_r2, 1ull);
    st64(r_h6, (r_52_4 - r_lc_1));
l_arm_mf:;
    u16 r_py = (u16)r_y6;
    st64(slot_2, r_l8);
    stp((slot_2 + 8), r_8d);
    st64((slot_2 + 16), r_n9);
    st32((slot_2 + 24), r_tc);
    st32((slot_2 + 28), r_nz);
    capnp_show_show_lines_Lines_write_struct(a_3, slot_2, (u16)((u16)((u16)r_ep & 65280u) | (u16)((u16)r_ep & 255u)), r_py);
    r_zg = r_py;
    r_co = 2u;
    r_e0 = r_nz;
    r_sq = ((u32)((u32)r_y6 << 16u) | ((u32)r_ep & 65535u));
    r_ls = 0u;
    r_7q = r_tc;
    r_6l = r_n9;
    r_u9 = r_8d;
    r_fk = r_l8;
    goto l_join_x3;
l_arm_z2:;
    switch_wl = (u8)((u8)(u64)(r_3g >> 32ull) & 7u);
    r_ij = (u64)(r_3g >> 35ull);
    switch (switch_wl) {
    case 7u: goto l_arm_xd;
    case 6u: goto l_arm_te;
    case 0u: goto l_arm_xd_1;
    case 5u: goto l_arm_h9;
    case 4u: goto l_arm_h9_1;
    case 3u: goto l_arm_h9_2;
    case 1u: { r_qs = 1ull; goto l_capnp_xd; }
    case 2u: goto l_arm_h9_3;
    default: goto l_default_e1;
    }
l_arm_xd:;
    if ((i32)r_5k_1 < (i32)1u) { r_k2 = 40ull; r_os = ((u8 *)g_static_159); goto l_capnp_ew; }
    r_c4_2 = (r_ij + 1ull);
    r_24_2 = (u64)r_tc;
    r_gw_1 = (u64)(r_n9 >> 3ull);
    if ((r_gw_1 & 0xffffffffull) < (r_c4_2 + r_24_2)) { r_k2 = 33ull; r_os = ((u8 *)g_static_156); goto l_capnp_ew; }
    if (t_pa) goto l_arm_ga;
    if (!(ld8(r_r2) == 1u)) goto l_arm_ga;
    r_h6_1 = away(a_3, 64ull);
    r_52_5 = ld64(r_h6_1);
    if (!(r_52_5 > r_ij)) { r_k2 = 17ull; r_os = ((u8 *)g_static_163); goto l_capnp_ew; }
    st64(r_r2, 1ull);
    st64(r_h6_1, (r_52_5 - r_c4_2));
l_arm_ga:;
    if (!(r_gw_1 > r_24_2)) { r_eh = 0ull; goto l_join_qm; }
    u64 r_qw_5 = ld64(away(r_8d, (u64)(r_24_2 << 3ull)));
    if ((r_qw_5 & 3ull) == 0ull) { r_eh = r_qw_5; goto l_join_qm; }
    r_k2 = 50ull;
    r_os = ((u8 *)g_static_144);
    goto l_capnp_ew;
l_join_qm:;
    t_c8 = (u32)((u32)r_eh >> 2u);
    r_ep_1 = (u64)(r_eh >> 32ull);
    r_y6_1 = (u64)(r_eh >> 48ull);
    r_12 = (u32)r_y6_1;
    r_az = ((u32)r_ep_1 & 65535u);
    r_68 = (r_az + r_12);
    r_c0 = (u64)t_c8;
    if (r_ij < ((u64)r_68 * r_c0)) { r_k2 = 47ull; r_os = ((u8 *)g_static_143); goto l_capnp_ew; }
    if ((u8)((u8)t_pa | (u8)(r_68 != 0u))) goto l_arm_8e;
    if (!(ld8(r_r2) == 1u)) goto l_arm_8e;
    r_h6_2 = away(a_3, 64ull);
    r_52_6 = ld64(r_h6_2);
    if (r_52_6 < r_c0) { r_k2 = 17ull; r_os = ((u8 *)g_static_163); goto l_capnp_ew; }
    st64(r_r2, 1ull);
    st64(r_h6_2, (r_52_6 - r_c0));
l_arm_8e:;
    r_ll = (r_tc + 1u);
    r_29 = ((u32)(r_12 << 16u) | r_az);
    r_py_1 = (u16)r_y6_1;
    r_pz_1 = (u16)((u16)((u16)r_ep_1 & 65280u) | (u16)((u16)r_ep_1 & 255u));
    r_c0_1 = (u64)t_c8;
    if (ld8(r_q6_1) == 0u) goto l_then_q3;
    goto l_capnp_uq;
l_arm_te:;
    r_12_1 = (u32)r_ij;
    if ((i32)r_5k_1 < (i32)1u) { r_k2 = 40ull; r_os = ((u8 *)g_static_159); goto l_capnp_ew; }
    if (((u64)(r_n9 >> 3ull) & 0xffffffffull) < (r_ij + (u64)r_tc)) { r_k2 = 33ull; r_os = ((u8 *)g_static_156); goto l_capnp_ew; }
    if (t_pa) goto l_arm_tt;
    if (!(ld8(r_r2) == 1u)) goto l_arm_tt;
    r_h6_3 = away(a_3, 64ull);
    r_52_7 = ld64(r_h6_3);
    if (r_52_7 < r_ij) { r_k2 = 17ull; r_os = ((u8 *)g_static_163); goto l_capnp_ew; }
    st64(r_r2, 1ull);
    st64(r_h6_3, (r_52_7 - r_ij));
    goto l_arm_tt;
l_arm_xd_1:;
    if ((i32)r_5k_1 < (i32)1u) { r_k2 = 40ull; r_os = ((u8 *)g_static_159); goto l_capnp_ew; }
    if (((u64)(r_n9 >> 3ull) & 0xffffffffull) < (u64)r_tc) { r_k2 = 33ull; r_os = ((u8 *)g_static_156); goto l_capnp_ew; }
    if (t_pa) goto l_arm_bj;
    if (!(ld8(r_r2) == 1u)) goto l_arm_bj;
    st64(r_r2, 1ull);
    r_h6_4 = away(a_3, 64ull);
    r_52_8 = ld64(r_h6_4);
    if (r_52_8 < r_ij) { r_k2 = 17ull; r_os = ((u8 *)g_static_163); goto l_capnp_ew; }
    st64(r_h6_4, (r_52_8 - r_ij));
    goto l_arm_bj;
l_arm_h9_3:;
    r_qs = 8ull;
    goto l_capnp_xd;
l_arm_h9_2:;
    r_qs = 16ull;
    goto l_capnp_xd;
l_arm_h9_1:;
    r_qs = 32ull;
    goto l_capnp_xd;
l_arm_h9:;
    r_qs = 64ull;
l_capnp_xd:;
    if ((i32)r_5k_1 < (i32)1u) { r_k2 = 40ull; r_os = ((u8 *)g_static_159); goto l_capnp_ew; }
    r_c6 = (u64)(((r_qs * r_ij) + 63ull) >> 6ull);
    if (((u64)(r_n9 >> 3ull) & 0xffffffffull) < (r_c6 + (u64)r_tc)) { r_k2 = 33ull; r_os = ((u8 *)g_static_156); goto l_capnp_ew; }
    if (t_pa) goto l_arm_6p;
    if (!(ld8(r_r2) == 1u)) goto l_arm_6p;
    r_h6_5 = away(a_3, 64ull);
    r_52_9 = ld64(r_h6_5);
    if (r_52_9 < r_c6) { r_k2 = 17ull; r_os = ((u8 *)g_static_163); goto l_capnp_ew; }
    st64(r_r2, 1ull);
    st64(r_h6_5, (r_52_9 - r_c6));
    goto l_arm_6p;
l_default_e1:;
    UNREACHABLE();
l_capnp_8g:;
    r_ef = r_2g_1;
l_capnp_68:;
    r_50 = (r_ef & 255ull);
    goto l_switch_44;
l_capnp_tl:;
    r_ep_2 = (u64)(r_3g >> 32ull);
    if ((r_3g & 0xffffffffull) == 3ull) goto l_arm_s6_1;
    r_50 = 34ull;
    goto l_switch_44;
l_arm_tt:;
    r_s5 = (u16)(u64)(r_3g >> 51ull);
    if (ld8(r_q6_1) == 0u) goto l_then_23;
    goto l_capnp_0l;
l_arm_s6_1:;
    if (ld8(r_q6_1) == 0u) goto l_then_ae;
    r_zg = 0u;
    r_co = 1u;
    r_e0 = 0u;
    r_sq = 0u;
    r_ls = 0u;
    r_7q = 0u;
    r_6l = 0ull;
    r_u9 = ((u8 *)0);
    r_fk = 0ull;
    goto l_join_x3;
l_then_1y:;
    r_rq_2 = away(a_3, 8ull);
    r_52_10 = ld64(r_rq_2);
    if (r_52_10 > 0x3ffffbbull) { r_1e_1 = 0u; r_6i_1 = 1u; goto l_capnp_vj_1; }
    r_08_2 = away(a_3, 16ull);
    u64 r_52_11 = ld64(r_08_2);
    if (!((r_52_11 - r_52_10) < 5ull)) { r_af = r_52_11; r_rf = r_52_10; goto l_join_a9; }
    u8 r_6h = std_alloc_vec_Vec_grow_amortized_9634afabedddd7ee(a_3, 5ull);
    if (!r_6h) { r_1e_1 = 1u; r_6i_1 = 1u; goto l_capnp_vj_1; }
    r_af = ld64(r_08_2);
    r_rf = ld64(r_rq_2);
l_join_a9:;
    r_pk = (r_rf + 5ull);
    r_fx_2 = ldp(a_3);
    r_2b_2 = away(r_fx_2, r_rf);
    if (((u64)(uptr)r_2b_2 - (u64)(uptr)((u8 *)g_static_271)) < 5ull) { r_ol = 0ull; goto l_join_4h; }
    mv5(r_2b_2, ((u8 *)g_static_271));
    goto l_core_ga_2;
l_join_4h:;
    st8((r_2b_2 + (i64)(r_ol)), ld8((((u8 *)g_static_271) + (i64)(r_ol))));
    u64 r_c4_3 = (r_ol + 1ull);
    if (!(r_c4_3 == 5ull)) { r_ol = r_c4_3; goto l_join_4h; }
l_core_ga_2:;
    stp(a_3, r_fx_2);
    st64(r_rq_2, r_pk);
    st64(r_08_2, r_af);
    r_1e_1 = 0u;
    r_6i_1 = 0u;
l_capnp_vj_1:;
    st8(r_q6_1, r_6i_1);
    st8(away(a_3, 26ull), r_1e_1);
    r_zg = 0u;
    r_co = 0u;
    r_e0 = 0u;
    r_sq = 0u;
    r_ls = 0u;
    r_7q = 0u;
    r_6l = 0ull;
    r_u9 = ((u8 *)0);
    r_fk = 0ull;
    goto l_join_x3;
l_then_ae:;
    r_rq_3 = away(a_3, 8ull);
    r_52_12 = ld64(r_rq_3);
    if (r_52_12 > 0x3ffffb4ull) { r_e7 = 0u; goto l_arm_n5; }
    r_08_3 = away(a_3, 16ull);
    u64 r_52_13 = ld64(r_08_3);
    if (!((r_52_13 - r_52_12) < 12ull)) { r_yi = r_52_13; r_xi = r_52_12; goto l_join_4b; }
    u8 r_ul = std_alloc_vec_Vec_grow_amortized_9634afabedddd7ee(a_3, 12ull);
    if (!r_ul) { r_e7 = 1u; goto l_arm_n5; }
    r_yi = ld64(r_08_3);
    r_xi = ld64(r_rq_3);
l_join_4b:;
    r_4y = (r_xi + 12ull);
    r_fx_3 = ldp(a_3);
    r_2b_3 = away(r_fx_3, r_xi);
    if (((u64)(uptr)r_2b_3 - (u64)(uptr)((u8 *)g_static_272)) < 12ull) { r_he = 0ull; goto l_join_zx; }
    mv12(r_2b_3, ((u8 *)g_static_272));
    goto l_arm_na;
l_join_zx:;
    st8((r_2b_3 + (i64)(r_he)), ld8((((u8 *)g_static_272) + (i64)(r_he))));
    u64 r_c4_4 = (r_he + 1ull);
    if (!(r_c4_4 == 12ull)) { r_he = r_c4_4; goto l_join_zx; }
l_arm_na:;
    stp(a_3, r_fx_3);
    st64(r_rq_3, r_4y);
    st64(r_08_3, r_yi);
    struct s_i8_i8 r_zo = capnp_show_show_text_Text_push_number(a_3, r_ep_2);
    r_o6 = r_zo;
    goto l_capnp_rc;
l_arm_n5:;
    struct s_i8_i8 t_fj = (struct s_i8_i8){ 1u, 0u };
    t_fj.f1 = r_e7;
    r_o6 = t_fj;
l_capnp_rc:;
    st8(r_q6_1, r_o6.f0);
    st8(away(a_3, 26ull), r_o6.f1);
    r_zg = 0u;
    r_co = 1u;
    r_e0 = 0u;
    r_sq = 0u;
    r_ls = 0u;
    r_7q = 0u;
    r_6l = 0ull;
    r_u9 = ((u8 *)0);
    r_fk = 0ull;
    goto l_join_x3;
l_arm_bj:;
    memset(slot_2, 0u, 32);
    r_ah = 0u;
    r_2b_4 = 6ull;
    r_2o = ((u8 *)g_static_273);
    goto l_capnp_0k;
l_arm_6p:;
    memset(slot_2, 0u, 32);
    u8 switch_w9 = (u8)(switch_wl + 255u);
    r_ah = switch_wl;
    r_2b_4 = ld64((((u8 *)switch_table_capnp_show_show_lines_show_pointer_5ccc1b_c0287b34) + (i64)(8 * (u64)switch_w9)));
    r_2o = ldp((((u8 *)switch_table_capnp_show_show_lines_show_pointer_5ccc1b_ef2ab783) + (i64)(8 * (u64)switch_w9)));
l_capnp_0k:;
    r_4b = (u32)r_ah;
    r_12_2 = (u32)r_ij;
    if (!(ld8(r_q6_1) == 0u)) goto l_capnp_uq_1;
    r_rq_4 = away(a_3, 8ull);
    r_52_14 = ld64(r_rq_4);
    if ((r_52_14 > 0x3ffffc0ull) ? 1u : ((0x3ffffc0ull - r_52_14) < r_2b_4)) { r_e7_1 = 0u; goto l_arm_n5_1; }
    r_08_4 = away(a_3, 16ull);
    u64 r_52_15 = ld64(r_08_4);
    if (!(r_2b_4 > (r_52_15 - r_52_14))) { r_bu = r_52_15; r_tk = r_52_14; goto l_join_pq; }
    u8 r_9z = std_alloc_vec_Vec_grow_amortized_9634afabedddd7ee(a_3, r_2b_4);
    if (!r_9z) { r_e7_1 = 1u; goto l_arm_n5_1; }
    r_bu = ld64(r_08_4);
    r_tk = ld64(r_rq_4);
l_join_pq:;
    r_5q = (r_tk + r_2b_4);
    r_fx_4 = ldp(a_3);
    r_2b_5 = away(r_fx_4, r_tk);
    if (((u64)(uptr)r_2b_5 - (u64)(uptr)r_2o) < r_2b_4) { r_il = 0ull; goto l_join_fh; }
    memcpy_or_none(r_2b_5, r_2o, r_2b_4);
    goto l_arm_na_1;
l_join_fh:;
    st8((r_2b_5 + (i64)(r_il)), ld8((r_2o + (i64)(r_il))));
    u64 r_c4_5 = (r_il + 1ull);
    if (!(r_c4_5 == r_2b_4)) { r_il = r_c4_5; goto l_join_fh; }
l_arm_na_1:;
    stp(a_3, r_fx_4);
    st64(r_rq_4, r_5q);
    st64(r_08_4, r_bu);
    struct s_i8_i8 r_zo_1 = capnp_show_show_text_Text_push_number(a_3, r_ij);
    r_o6_1 = r_zo_1;
    goto l_capnp_rc_1;
l_arm_n5_1:;
    struct s_i8_i8 t_fj_1 = (struct s_i8_i8){ 1u, 0u };
    t_fj_1.f1 = r_e7_1;
    r_o6_1 = t_fj_1;
l_capnp_rc_1:;
    r_kp = r_o6_1.f0;
    st8(r_q6_1, r_kp);
    r_i8 = away(a_3, 26ull);
    st8(r_i8, r_o6_1.f1);
    if ((u8)(ld8(r_yf) & 1)) goto l_then_pz;
    goto l_capnp_qg;
l_capnp_uq_1:;
    if ((u8)(ld8(r_yf) & 1)) goto l_capnp_jh;
    goto l_capnp_qg;
l_then_pz:;
    if (!(r_kp == 0u)) goto l_capnp_jh;
    r_52_16 = ld64(r_rq_4);
    if (r_52_16 > 0x3ffffbdull) { r_i7 = 0u; r_w0 = 1u; goto l_capnp_xz; }
    r_08_5 = away(a_3, 16ull);
    u64 r_52_17 = ld64(r_08_5);
    if (!((r_52_17 - r_52_16) < 3ull)) { r_8e = r_52_17; r_ue = r_52_16; goto l_join_h7; }
    u8 r_52_18 = std_alloc_vec_Vec_grow_amortized_9634afabedddd7ee(a_3, 3ull);
    if (!r_52_18) { r_i7 = 1u; r_w0 = 1u; goto l_capnp_xz; }
    r_8e = ld64(r_08_5);
    r_ue = ld64(r_rq_4);
l_join_h7:;
    r_hc = (r_ue + 3ull);
    r_fx_5 = ldp(a_3);
    r_2b_6 = away(r_fx_5, r_ue);
    if (((u64)(uptr)r_2b_6 - (u64)(uptr)((u8 *)g_static_279)) < 3ull) { r_e1 = 0ull; goto l_join_32; }
    mv3(r_2b_6, ((u8 *)g_static_279));
    goto l_core_ga_3;
l_join_32:;
    st8((r_2b_6 + (i64)(r_e1)), ld8((((u8 *)g_static_279) + (i64)(r_e1))));
    u64 r_c4_6 = (r_e1 + 1ull);
    if (!(r_c4_6 == 3ull)) { r_e1 = r_c4_6; goto l_join_32; }
l_core_ga_3:;
    stp(a_3, r_fx_5);
    st64(r_rq_4, r_hc);
    st64(r_08_5, r_8e);
    r_i7 = 0u;
    r_w0 = 0u;
l_capnp_xz:;
    st8(r_q6_1, r_w0);
    st8(r_i8, r_i7);
l_capnp_jh:;
    capnp_show_show_lines_Lines_write_place(a_3, r_l8, r_tc);
l_capnp_qg:;
    switch (r_ah) {
    case 0u: { r_zg = 0u; r_co = 3u; r_e0 = r_nz; r_sq = r_4b; r_ls = r_12_2; r_7q = r_tc; r_6l = r_n9; r_u9 = r_8d; r_fk = r_l8; goto l_join_x3; }
    case 2u: goto l_arm_5c;
    case 1u: goto l_arm_3e;
    case 3u: goto l_arm_3e;
    case 4u: goto l_arm_3e;
    case 5u: goto l_arm_3e;
    case 6u: goto l_arm_3e;
    case 7u: goto l_arm_3e;
    default: goto l_noarm_e1;
    }
l_arm_5c:;
    u64 a_f1 = umin64(r_n9, (u64)((u64)r_tc << 3ull));
    r_ud = away(r_8d, a_f1);
    a_5j = umin64((r_n9 - a_f1), r_ij);
    if (a_5j == 0ull) { r_zg = 0u; r_co = 3u; r_e0 = r_nz; r_sq = r_4b; r_ls = r_12_2; r_7q = r_tc; r_6l = r_n9; r_u9 = r_8d; r_fk = r_l8; goto l_join_x3; }
    if (!(ld8(r_q6_1) == 0u)) goto l_join_s7;
    r_rq_5 = away(a_3, 8ull);
    r_52_19 = ld64(r_rq_5);
    if (r_52_19 > 0x3ffffbeull) { r_1e_2 = 0u; r_6i_2 = 1u; goto l_capnp_vj_2; }
    r_08_6 = away(a_3, 16ull);
    u64 r_52_20 = ld64(r_08_6);
    if (!((r_52_20 - r_52_19) < 2ull)) { r_c0_2 = r_52_20; r_54 = r_52_19; goto l_join_p3; }
    u8 r_y4 = std_alloc_vec_Vec_grow_amortized_9634afabedddd7ee(a_3, 2ull);
    if (!r_y4) { r_1e_2 = 1u; r_6i_2 = 1u; goto l_capnp_vj_2; }
    r_c0_2 = ld64(r_08_6);
    r_54 = ld64(r_rq_5);
l_join_p3:;
    r_x4 = (r_54 + 2ull);
    r_fx_6 = ldp(a_3);
    r_2b_7 = away(r_fx_6, r_54);
    if (((u64)(uptr)r_2b_7 - (u64)(uptr)((u8 *)g_static_61)) < 2ull) { r_y8 = 0ull; goto l_join_pd; }
    st16(r_2b_7, 8250u);
    goto l_core_ga_4;
l_join_pd:;
    st8((r_2b_7 + (i64)(r_y8)), ld8((((u8 *)g_static_61) + (i64)(r_y8))));
    u64 r_c4_7 = (r_y8 + 1ull);
    if (!(r_c4_7 == 2ull)) { r_y8 = r_c4_7; goto l_join_pd; }
l_core_ga_4:;
    stp(a_3, r_fx_6);
    st64(r_rq_5, r_x4);
    st64(r_08_6, r_c0_2);
    r_1e_2 = 0u;
    r_6i_2 = 0u;
l_capnp_vj_2:;
    st8(r_q6_1, r_6i_2);
    st8(away(a_3, 26ull), r_1e_2);
l_join_s7:;
    r_qd = (a_5j + 0xffffffffffffffffull);
    if (!(ld8((r_ud + (i64)(r_qd))) == 0u)) goto l_arm_q4;
    memset(slot_1, 0u, 24);
    core_str_utf8_from_utf8(slot_1, r_ud, r_qd);
    r_xw = ldp((slot_1 + 8));
    r_38_1 = ld64((slot_1 + 16));
    if (!(ld8(slot_1) == 0u)) goto l_arm_q4;
    if (r_qd == 0ull) goto l_arm_h9_4;
    r_ux = 0u;
    r_dq = 0ull;
    goto l_join_1e;
l_loop_2r:;
    u64 r_36 = (r_dq + 1ull);
    if (r_36 == r_qd) goto l_arm_h9_4;
    r_ux = r_47;
    r_dq = r_36;
l_join_1e:;
    r_47 = ld8(away(r_ud, r_dq));
    if (!(r_47 < 32u)) { r_17 = 0u; goto l_capnp_fz; }
    r_17 = (u8)((u8)(r_47 != 13u) & (u8)((u8)(r_47 + 245u) < 254u));
l_capnp_fz:;
    if ((u8)((u8)(u8)((u8)(r_ux == 194u) & (u8)(r_47 < 160u)) | (u8)(u8)((u8)(r_47 == 127u) | (u8)r_17))) goto l_arm_q4;
    goto l_loop_2r;
l_arm_h9_4:;
    if (r_38_1 < 1025ull) { r_56 = r_38_1; goto l_capnp_fk; }
    r_i2 = 1024ull;
l_then_pb:;
    if (!((i8)ld8((r_xw + (i64)(r_i2))) < (i8)192u)) { r_56 = r_i2; goto l_capnp_fk; }
    u64 r_0f = (r_i2 + 0xffffffffffffffffull);
    if (r_0f == 0ull) { r_56 = 0ull; goto l_capnp_fk; }
    r_i2 = r_0f;
    goto l_then_pb;
l_capnp_fk:;
    capnp_show_show_lines_Lines_begin(a_3, 2u);
    u8 r_47_1 = ld8(r_q6_1);
    if (!(r_47_1 == 0u)) { r_26 = r_47_1; goto l_capnp_b6; }
    struct s_i8_i8 r_z6 = capnp_show_show_text_Text_push_quoted(a_3, r_xw, r_56);
    u8 r_kp_1 = r_z6.f0;
    st8(r_q6_1, r_kp_1);
    r_i8_1 = away(a_3, 26ull);
    st8(r_i8_1, r_z6.f1);
    if (!((u8)(ld8(away(a_3, 81ull)) & 1) ? (r_kp_1 == 0u) : 0u)) { r_26 = r_kp_1; goto l_capnp_b6; }
    r_rq_6 = away(a_3, 8ull);
    r_52_21 = ld64(r_rq_6);
    if (r_52_21 > 0x3ffffbcull) { r_i7_1 = 0u; r_w0_1 = 1u; goto l_capnp_xz_1; }
    r_08_7 = away(a_3, 16ull);
    u64 r_52_22 = ld64(r_08_7);
    if (!((r_52_22 - r_52_21) < 4ull)) { r_y1_1 = r_52_22; r_pz_2 = r_52_21; goto l_join_tt_1; }
    u8 r_t3_1 = std_alloc_vec_Vec_grow_amortized_9634afabedddd7ee(a_3, 4ull);
    if (!r_t3_1) { r_i7_1 = 1u; r_w0_1 = 1u; goto l_capnp_xz_1; }
    r_y1_1 = ld64(r_08_7);
    r_pz_2 = ld64(r_rq_6);
l_join_tt_1:;
    r_5b_1 = (r_pz_2 + 4ull);
    r_fx_7 = ldp(a_3);
    r_2b_8 = away(r_fx_7, r_pz_2);
    if (((u64)(uptr)r_2b_8 - (u64)(uptr)((u8 *)g_static_266)) < 4ull) { r_51 = 0ull; goto l_join_fz; }
    st32(r_2b_8, 0x6d305b1bu);
    goto l_core_ga_5;
l_join_fz:;
    st8((r_2b_8 + (i64)(r_51)), ld8((((u8 *)g_static_266) + (i64)(r_51))));
    u64 r_c4_8 = (r_51 + 1ull);
    if (!(r_c4_8 == 4ull)) { r_51 = r_c4_8; goto l_join_fz; }
l_core_ga_5:;
    stp(a_3, r_fx_7);
    st64(r_rq_6, r_5b_1);
    st64(r_08_7, r_y1_1);
    r_i7_1 = 0u;
    r_w0_1 = 0u;
l_capnp_xz_1:;
    st8(r_q6_1, r_w0_1);
    st8(r_i8_1, r_i7_1);
    r_26 = r_w0_1;
l_capnp_b6:;
    if (!(r_56 < r_38_1)) { r_zg = 0u; r_co = 3u; r_e0 = r_nz; r_sq = r_4b; r_ls = r_12_2; r_7q = r_tc; r_6l = r_n9; r_u9 = r_8d; r_fk = r_l8; goto l_join_x3; }
    if (!(r_26 == 0u)) goto l_join_8y;
    r_rq_7 = away(a_3, 8ull);
    r_52_23 = ld64(r_rq_7);
    if (r_52_23 > 0x3ffffbfull) { r_1e_3 = 0u; r_6i_3 = 1u; goto l_capnp_vj_3; }
    r_08_8 = away(a_3, 16ull);
    u64 r_52_24 = ld64(r_08_8);
    if (!(r_52_24 == r_52_23)) { r_20 = r_52_24; r_j8 = r_52_23; goto l_join_jz; }
    u8 r_av = std_alloc_vec_Vec_grow_amortized_9634afabedddd7ee(a_3, 1ull);
    if (!r_av) { r_1e_3 = 1u; r_6i_3 = 1u; goto l_capnp_vj_3; }
    r_20 = ld64(r_08_8);
    r_j8 = ld64(r_rq_7);
l_join_jz:;
    u8 *r_fx_8 = ldp(a_3);
    st8(away(r_fx_8, r_j8), 32u);
    stp(a_3, r_fx_8);
    st64(r_rq_7, (r_j8 + 1ull));
    st64(r_08_8, r_20);
    r_1e_3 = 0u;
    r_6i_3 = 0u;
l_capnp_vj_3:;
    st8(r_q6_1, r_6i_3);
    st8(away(a_3, 26ull), r_1e_3);
    goto l_join_8y;
l_arm_q4:;
    if (!(ld8(r_q6_1) == 0u)) goto l_join_4k;
    r_rq_8 = away(a_3, 8ull);
    r_08_9 = away(a_3, 16ull);
    r_x9 = r_ud;
    r_tc_1 = umin64(a_5j, 64ull);
l_join_kl:;
    a_3q = umin64(r_tc_1, 512ull);
    memset(slot_1, 0u, 1024);
    r_pt = 0ull;
l_join_jf:;
    u8 r_47_2 = ld8((r_x9 + (i64)(r_pt)));
    u8 *r_a7 = (slot_1 + (i64)((u64)(r_pt << 1ull)));
    st8(r_a7, ld8((((u8 *)g_static_197) + (i64)((u64)(u8)((u32)r_47_2 >> 4u)))));
    st8((r_a7 + 1), ld8((((u8 *)g_static_197) + (i64)((u64)(u8)(r_47_2 & 15u)))));
    u64 r_c4_9 = (r_pt + 1ull);
    if (!(r_c4_9 == a_3q)) { r_pt = r_c4_9; goto l_join_jf; }
    r_yb = (u64)(a_3q << 1ull);
    r_52_25 = ld64(r_rq_8);
    if ((r_52_25 > 0x3ffffc0ull) ? 1u : ((0x3ffffc0ull - r_52_25) < r_yb)) { r_tz = 0u; goto l_join_bo; }
    u64 r_52_26 = ld64(r_08_9);
    if (!(r_yb > (r_52_26 - r_52_25))) { r_kp_2 = r_52_26; r_ai = r_52_25; goto l_arm_o0; }
    u8 r_c4_10 = std_alloc_vec_Vec_grow_amortized_9634afabedddd7ee(a_3, r_yb);
    if (!r_c4_10) { r_tz = 1u; goto l_join_bo; }
    r_kp_2 = ld64(r_08_9);
    r_ai = ld64(r_rq_8);
l_arm_o0:;
    r_5q_1 = (r_ai + r_yb);
    r_fx_9 = ldp(a_3);
    memcpy_or_none(away(r_fx_9, r_ai), slot_1, r_yb);
    stp(a_3, r_fx_9);
    st64(r_rq_8, r_5q_1);
    st64(r_08_9, r_kp_2);
    u64 r_nr = (r_tc_1 - a_3q);
    if (!(r_nr == 0ull)) { u8 *r_1 = away(r_x9, a_3q); u64 r_2 = r_nr; r_x9 = r_1; r_tc_1 = r_2; goto l_join_kl; }
    st8(r_q6_1, 0u);
    r_i8_2 = away(a_3, 26ull);
    st8(r_i8_2, 0u);
    if (a_5j > 64ull) goto l_then_zl;
    r_zg = 0u;
    r_co = 3u;
    r_e0 = r_nz;
    r_sq = r_4b;
    r_ls = r_12_2;
    r_7q = r_tc;
    r_6l = r_n9;
    r_u9 = r_8d;
    r_fk = r_l8;
    goto l_join_x3;
l_join_bo:;
    st8(r_q6_1, 1u);
    st8(away(a_3, 26ull), r_tz);
    if (a_5j > 64ull) goto l_join_8y;
    r_zg = 0u;
    r_co = 3u;
    r_e0 = r_nz;
    r_sq = r_4b;
    r_ls = r_12_2;
    r_7q = r_tc;
    r_6l = r_n9;
    r_u9 = r_8d;
    r_fk = r_l8;
    goto l_join_x3;
l_join_4k:;
    if (a_5j > 64ull) goto l_join_8y;
    r_zg = 0u;
    r_co = 3u;
    r_e0 = r_nz;
    r_sq = r_4b;
    r_ls = r_12_2;
    r_7q = r_tc;
    r_6l = r_n9;
    r_u9 = r_8d;
    r_fk = r_l8;
    goto l_join_x3;
l_then_zl:;
    if (r_5q_1 > 0x3ffffbfull) { r_ws = 0u; r_ak = 1u; goto l_capnp_62; }
    if (!(r_kp_2 == r_5q_1)) { r_iq = r_fx_9; r_a3 = r_kp_2; r_bp = r_5q_1; goto l_join_wl; }
    u8 r_av_1 = std_alloc_vec_Vec_grow_amortized_9634afabedddd7ee(a_3, 1ull);
    if (!r_av_1) { r_ws = 1u; r_ak = 1u; goto l_capnp_62; }
    r_iq = ldp(a_3);
    r_a3 = ld64(r_08_9);
    r_bp = ld64(r_rq_8);
l_join_wl:;
    st8(away(r_iq, r_bp), 32u);
    stp(a_3, r_iq);
    st64(r_rq_8, (r_bp + 1ull));
    st64(r_08_9, r_a3);
    r_ws = 0u;
    r_ak = 0u;
l_capnp_62:;
    st8(r_q6_1, r_ak);
    st8(r_i8_2, r_ws);
    goto l_join_8y;
l_arm_3e:;
    if (r_ij == 0ull) { r_zg = 0u; r_co = 3u; r_e0 = r_nz; r_sq = r_4b; r_ls = 0u; r_7q = r_tc; r_6l = r_n9; r_u9 = r_8d; r_fk = r_l8; goto l_join_x3; }
    r_gw_2 = (u64)(r_n9 >> 3ull);
    r_rq_9 = away(a_3, 8ull);
    r_08_10 = away(a_3, 16ull);
    r_i8_3 = away(a_3, 26ull);
    wide_v1 = (u64)umin32(r_12_2, 64u);
    indvars_x9 = 0ull;
l_join_4v:;
    u8 r_5h = (indvars_x9 == 0ull);
    i_0a = (r_5h ? 2ull : 1ull);
    static_fj = (r_5h ? ((u8 *)g_static_61) : ((u8 *)g_static_267));
    t_nk = (u32)indvars_x9;
    switch (r_ah) {
    case 1u: goto l_arm_gd;
    case 2u: goto l_arm_g8;
    case 3u: goto l_arm_1t;
    case 4u: goto l_arm_0o;
    case 0u: { r_st = t_nk; goto l_capnp_k6; }
    case 5u: { r_st = t_nk; goto l_capnp_k6; }
    case 6u: { r_st = t_nk; goto l_capnp_k6; }
    case 7u: { r_st = t_nk; goto l_capnp_k6; }
    default: goto l_noarm_e1_1;
    }
l_arm_gd:;
    r_st = (u32)(t_nk >> 6u);
    goto l_capnp_k6;
l_arm_g8:;
    r_st = (u32)(t_nk >> 3u);
    goto l_capnp_k6;
l_arm_1t:;
    r_st = (u32)(t_nk >> 2u);
    goto l_capnp_k6;
l_arm_0o:;
    r_st = (u32)(t_nk >> 1u);
    goto l_capnp_k6;
l_noarm_e1_1:;
    UNREACHABLE();
l_capnp_k6:;
    r_24_3 = (u64)uadd_sat32(r_st, r_tc);
    if (!(r_gw_2 > r_24_3)) { r_de = 0ull; goto l_capnp_0h; }
    r_de = ld64(away(r_8d, (u64)(r_24_3 << 3ull)));
l_capnp_0h:;
    switch (r_ah) {
    case 1u: goto l_arm_6b;
    case 2u: goto l_arm_qk;
    case 3u: goto l_arm_5n;
    case 4u: goto l_arm_ld;
    case 0u: { r_zg_1 = r_de; goto l_capnp_x3; }
    case 5u: { r_zg_1 = r_de; goto l_capnp_x3; }
    case 6u: { r_zg_1 = r_de; goto l_capnp_x3; }
    case 7u: { r_zg_1 = r_de; goto l_capnp_x3; }
    default: goto l_noarm_e1_2;
    }
l_arm_6b:;
    r_zg_1 = ((u64)(r_de >> (indvars_x9 & 63u)) & 1ull);
    goto l_capnp_x3;
l_arm_qk:;
    r_zg_1 = ((u64)(r_de >> (((u64)(indvars_x9 << 3ull) & 56ull) & 63u)) & 255ull);
    goto l_capnp_x3;
l_arm_5n:;
    r_zg_1 = ((u64)(r_de >> (((u64)(indvars_x9 << 4ull) & 48ull) & 63u)) & 65535ull);
    goto l_capnp_x3;
l_arm_ld:;
    r_zg_1 = ((u64)(r_de >> (((u64)(indvars_x9 << 5ull) & 32ull) & 63u)) & 0xffffffffull);
    goto l_capnp_x3;
l_noarm_e1_2:;
    UNREACHABLE();
l_capnp_x3:;
    if (!(ld8(r_q6_1) == 0u)) { r_9o = 0u; goto l_capnp_4g; }
    r_52_27 = ld64(r_rq_9);
    if ((r_52_27 > 0x3ffffc0ull) ? 1u : ((0x3ffffc0ull - r_52_27) < i_0a)) { r_e7_2 = 0u; goto l_arm_n5_2; }
    u64 r_52_28 = ld64(r_08_10);
    if (!(i_0a > (r_52_28 - r_52_27))) { r_4b_1 = r_52_28; r_19 = r_52_27; goto l_join_ue; }
    u8 r_9u = std_alloc_vec_Vec_grow_amortized_9634afabedddd7ee(a_3, i_0a);
    if (!r_9u) { r_e7_2 = 1u; goto l_arm_n5_2; }
    r_4b_1 = ld64(r_08_10);
    r_19 = ld64(r_rq_9);
l_join_ue:;
    r_qh = (r_19 + i_0a);
    r_fx_10 = ldp(a_3);
    r_2b_9 = away(r_fx_10, r_19);
    if (((u64)(uptr)r_2b_9 - (u64)(uptr)static_fj) < i_0a) { r_es = 0ull; goto l_join_fx; }
    memcpy_or_none(r_2b_9, static_fj, i_0a);
    goto l_arm_na_2;
l_join_fx:;
    st8((r_2b_9 + (i64)(r_es)), ld8((static_fj + (i64)(r_es))));
    u64 r_c4_11 = (r_es + 1ull);
    if (!(r_c4_11 == i_0a)) { r_es = r_c4_11; goto l_join_fx; }
l_arm_na_2:;
    stp(a_3, r_fx_10);
    st64(r_rq_9, r_qh);
    st64(r_08_10, r_4b_1);
    struct s_i8_i8 r_zo_2 = capnp_show_show_text_Text_push_number(a_3, r_zg_1);
    r_su = r_zo_2;
    goto l_capnp_kx;
l_arm_n5_2:;
    struct s_i8_i8 t_fj_2 = (struct s_i8_i8){ 1u, 0u };
    t_fj_2.f1 = r_e7_2;
    r_su = t_fj_2;
l_capnp_kx:;
    u8 r_kp_3 = r_su.f0;
    st8(r_q6_1, r_kp_3);
    st8(r_i8_3, r_su.f1);
    r_9o = (r_kp_3 == 0u);
l_capnp_4g:;
    u64 indvars_r7 = (indvars_x9 + 1ull);
    if (!(indvars_r7 == wide_v1)) { indvars_x9 = indvars_r7; goto l_join_4v; }
    if (!(r_3g > 0x207ffffffffull)) { r_zg = 0u; r_co = 3u; r_e0 = r_nz; r_sq = r_4b; r_ls = r_12_2; r_7q = r_tc; r_6l = r_n9; r_u9 = r_8d; r_fk = r_l8; goto l_join_x3; }
    if (!r_9o) goto l_join_8y;
    r_52_29 = ld64(r_rq_9);
    if (r_52_29 > 0x3ffffbfull) { r_ws_1 = 0u; r_ak_1 = 1u; goto l_capnp_62_1; }
    u64 r_52_30 = ld64(r_08_10);
    if (!(r_52_30 == r_52_29)) { r_20_1 = r_52_30; r_j8_1 = r_52_29; goto l_join_jz_1; }
    u8 r_av_2 = std_alloc_vec_Vec_grow_amortized_9634afabedddd7ee(a_3, 1ull);
    if (!r_av_2) { r_ws_1 = 1u; r_ak_1 = 1u; goto l_capnp_62_1; }
    r_20_1 = ld64(r_08_10);
    r_j8_1 = ld64(r_rq_9);
l_join_jz_1:;
    u8 *r_fx_11 = ldp(a_3);
    st8(away(r_fx_11, r_j8_1), 32u);
    stp(a_3, r_fx_11);
    st64(r_rq_9, (r_j8_1 + 1ull));
    st64(r_08_10, r_20_1);
    r_ws_1 = 0u;
    r_ak_1 = 0u;
l_capnp_62_1:;
    st8(r_q6_1, r_ak_1);
    st8(r_i8_3, r_ws_1);
l_join_8y:;
    capnp_show_show_lines_Lines_write_part(a_3, ((u8 *)g_static_280), 2ull);
    r_zg = 0u;
    r_co = 3u;
    r_e0 = r_nz;
    r_sq = r_4b;
    r_ls = r_12_2;
    r_7q = r_tc;
    r_6l = r_n9;
    r_u9 = r_8d;
    r_fk = r_l8;
    goto l_join_x3;
l_noarm_e1:;
    UNREACHABLE();
l_then_23:;
    r_rq_10 = away(a_3, 8ull);
    r_52_31 = ld64(r_rq_10);
    if (r_52_31 > 0x3ffffb6ull) { r_e7_3 = 0u; goto l_arm_n5_3; }
    r_08_11 = away(a_3, 16ull);
    u64 r_52_32 = ld64(r_08_11);
    if (!((r_52_32 - r_52_31) < 10ull)) { r_kz = r_52_32; r_wh = r_52_31; goto l_join_67; }
    u8 r_74 = std_alloc_vec_Vec_grow_amortized_9634afabedddd7ee(a_3, 10ull);
    if (!r_74) { r_e7_3 = 1u; goto l_arm_n5_3; }
    r_kz = ld64(r_08_11);
    r_wh = ld64(r_rq_10);
l_join_67:;
    r_ob = (r_wh + 10ull);
    r_fx_12 = ldp(a_3);
    r_2b_10 = away(r_fx_12, r_wh);
    if (((u64)(uptr)r_2b_10 - (u64)(uptr)((u8 *)g_static_286)) < 10ull) { r_di = 0ull; goto l_join_ge; }
    mv10(r_2b_10, ((u8 *)g_static_286));
    goto l_arm_na_3;
l_join_ge:;
    st8((r_2b_10 + (i64)(r_di)), ld8((((u8 *)g_static_286) + (i64)(r_di))));
    u64 r_c4_12 = (r_di + 1ull);
    if (!(r_c4_12 == 10ull)) { r_di = r_c4_12; goto l_join_ge; }
l_arm_na_3:;
    stp(a_3, r_fx_12);
    st64(r_rq_10, r_ob);
    st64(r_08_11, r_kz);
    struct s_i8_i8 r_zo_3 = capnp_show_show_text_Text_push_number(a_3, r_ij);
    r_o6_2 = r_zo_3;
    goto l_capnp_rc_2;
l_arm_n5_3:;
    struct s_i8_i8 t_fj_3 = (struct s_i8_i8){ 1u, 0u };
    t_fj_3.f1 = r_e7_3;
    r_o6_2 = t_fj_3;
l_capnp_rc_2:;
    r_kp_4 = r_o6_2.f0;
    st8(r_q6_1, r_kp_4);
    r_i8_4 = away(a_3, 26ull);
    st8(r_i8_4, r_o6_2.f1);
    if ((u8)(ld8(r_yf) & 1)) goto l_then_pz_1;
    r_zg = r_s5;
    r_co = 4u;
    r_e0 = r_nz;
    r_sq = r_12_1;
    r_ls = 0u;
    r_7q = r_tc;
    r_6l = r_n9;
    r_u9 = r_8d;
    r_fk = r_l8;
    goto l_join_x3;
l_capnp_0l:;
    if ((u8)(ld8(r_yf) & 1)) goto l_capnp_72;
    r_zg = r_s5;
    r_co = 4u;
    r_e0 = r_nz;
    r_sq = r_12_1;
    r_ls = 0u;
    r_7q = r_tc;
    r_6l = r_n9;
    r_u9 = r_8d;
    r_fk = r_l8;
    goto l_join_x3;
l_then_pz_1:;
    if (!(r_kp_4 == 0u)) goto l_capnp_72;
    r_52_33 = ld64(r_rq_10);
    if (r_52_33 > 0x3ffffbdull) { r_i7_2 = 0u; r_w0_2 = 1u; goto l_capnp_xz_2; }
    r_08_12 = away(a_3, 16ull);
    u64 r_52_34 = ld64(r_08_12);
    if (!((r_52_34 - r_52_33) < 3ull)) { r_8e_1 = r_52_34; r_ue_1 = r_52_33; goto l_join_h7_1; }
    u8 r_52_35 = std_alloc_vec_Vec_grow_amortized_9634afabedddd7ee(a_3, 3ull);
    if (!r_52_35) { r_i7_2 = 1u; r_w0_2 = 1u; goto l_capnp_xz_2; }
    r_8e_1 = ld64(r_08_12);
    r_ue_1 = ld64(r_rq_10);
l_join_h7_1:;
    r_hc_1 = (r_ue_1 + 3ull);
    r_fx_13 = ldp(a_3);
    r_2b_11 = away(r_fx_13, r_ue_1);
    if (((u64)(uptr)r_2b_11 - (u64)(uptr)((u8 *)g_static_279)) < 3ull) { r_e1_1 = 0ull; goto l_join_32_1; }
    mv3(r_2b_11, ((u8 *)g_static_279));
    goto l_core_ga_6;
l_join_32_1:;
    st8((r_2b_11 + (i64)(r_e1_1)), ld8((((u8 *)g_static_279) + (i64)(r_e1_1))));
    u64 r_c4_13 = (r_e1_1 + 1ull);
    if (!(r_c4_13 == 3ull)) { r_e1_1 = r_c4_13; goto l_join_32_1; }
l_core_ga_6:;
    stp(a_3, r_fx_13);
    st64(r_rq_10, r_hc_1);
    st64(r_08_12, r_8e_1);
    r_i7_2 = 0u;
    r_w0_2 = 0u;
l_capnp_xz_2:;
    st8(r_q6_1, r_w0_2);
    st8(r_i8_4, r_i7_2);
l_capnp_72:;
    capnp_show_show_lines_Lines_write_place(a_3, r_l8, r_tc);
    r_zg = r_s5;
    r_co = 4u;
    r_e0 = r_nz;
    r_sq = r_12_1;
    r_ls = 0u;
    r_7q = r_tc;
    r_6l = r_n9;
    r_u9 = r_8d;
    r_fk = r_l8;
    goto l_join_x3;
l_then_q3:;
    r_rq_11 = away(a_3, 8ull);
    r_52_36 = ld64(r_rq_11);
    if (r_52_36 > 0x3ffffb7ull) { r_e7_4 = 0u; goto l_arm_n5_4; }
    r_08_13 = away(a_3, 16ull);
    u64 r_52_37 = ld64(r_08_13);
    if (!((r_52_37 - r_52_36) < 9ull)) { r_wv = r_52_37; r_9w = r_52_36; goto l_join_k6; }
    u8 r_om = std_alloc_vec_Vec_grow_amortized_9634afabedddd7ee(a_3, 9ull);
    if (!r_om) { r_e7_4 = 1u; goto l_arm_n5_4; }
    r_wv = ld64(r_08_13);
    r_9w = ld64(r_rq_11);
l_join_k6:;
    r_wr = (r_9w + 9ull);
    r_fx_14 = ldp(a_3);
    r_2b_12 = away(r_fx_14, r_9w);
    if (((u64)(uptr)r_2b_12 - (u64)(uptr)((u8 *)g_static_287)) < 9ull) { r_c2 = 0ull; goto l_join_8g; }
    mv9(r_2b_12, ((u8 *)g_static_287));
    goto l_arm_na_4;
l_join_8g:;
    st8((r_2b_12 + (i64)(r_c2)), ld8((((u8 *)g_static_287) + (i64)(r_c2))));
    u64 r_c4_14 = (r_c2 + 1ull);
    if (!(r_c4_14 == 9ull)) { r_c2 = r_c4_14; goto l_join_8g; }
l_arm_na_4:;
    stp(a_3, r_fx_14);
    st64(r_rq_11, r_wr);
    st64(r_08_13, r_wv);
    struct s_i8_i8 r_zo_4 = capnp_show_show_text_Text_push_number(a_3, r_c0_1);
    r_o6_3 = r_zo_4;
    goto l_capnp_rc_3;
l_arm_n5_4:;
    struct s_i8_i8 t_fj_4 = (struct s_i8_i8){ 1u, 0u };
    t_fj_4.f1 = r_e7_4;
    r_o6_3 = t_fj_4;
l_capnp_rc_3:;
    r_kp_5 = r_o6_3.f0;
    st8(r_q6_1, r_kp_5);
    r_i8_5 = away(a_3, 26ull);
    st8(r_i8_5, r_o6_3.f1);
    if ((u8)(ld8(r_yf) & 1)) goto l_then_pz_2;
    goto l_capnp_u5;
l_capnp_uq:;
    if ((u8)(ld8(r_yf) & 1)) goto l_capnp_jh_1;
    goto l_capnp_u5;
l_then_pz_2:;
    if (!(r_kp_5 == 0u)) goto l_capnp_jh_1;
    r_52_38 = ld64(r_rq_11);
    if (r_52_38 > 0x3ffffbdull) { r_i7_3 = 0u; r_w0_3 = 1u; goto l_capnp_xz_3; }
    r_08_14 = away(a_3, 16ull);
    u64 r_52_39 = ld64(r_08_14);
    if (!((r_52_39 - r_52_38) < 3ull)) { r_8e_2 = r_52_39; r_ue_2 = r_52_38; goto l_join_h7_2; }
    u8 r_52_40 = std_alloc_vec_Vec_grow_amortized_9634afabedddd7ee(a_3, 3ull);
    if (!r_52_40) { r_i7_3 = 1u; r_w0_3 = 1u; goto l_capnp_xz_3; }
    r_8e_2 = ld64(r_08_14);
    r_ue_2 = ld64(r_rq_11);
l_join_h7_2:;
    r_hc_2 = (r_ue_2 + 3ull);
    r_fx_15 = ldp(a_3);
    r_2b_13 = away(r_fx_15, r_ue_2);
    if (((u64)(uptr)r_2b_13 - (u64)(uptr)((u8 *)g_static_279)) < 3ull) { r_e1_2 = 0ull; goto l_join_32_2; }
    mv3(r_2b_13, ((u8 *)g_static_279));
    goto l_core_ga_7;
l_join_32_2:;
    st8((r_2b_13 + (i64)(r_e1_2)), ld8((((u8 *)g_static_279) + (i64)(r_e1_2))));
    u64 r_c4_15 = (r_e1_2 + 1ull);
    if (!(r_c4_15 == 3ull)) { r_e1_2 = r_c4_15; goto l_join_32_2; }
l_core_ga_7:;
    stp(a_3, r_fx_15);
    st64(r_rq_11, r_hc_2);
    st64(r_08_14, r_8e_2);
    r_i7_3 = 0u;
    r_w0_3 = 0u;
l_capnp_xz_3:;
    st8(r_q6_1, r_w0_3);
    st8(r_i8_5, r_i7_3);
l_capnp_jh_1:;
    capnp_show_show_lines_Lines_write_place(a_3, r_l8, r_ll);
l_capnp_u5:;
    capnp_show_show_lines_Lines_write_sizes(a_3, r_pz_1, r_py_1);
    r_zg = r_py_1;
    r_co = 5u;
    r_e0 = 0u;
    r_sq = r_29;
    r_ls = t_c8;
    r_7q = r_ll;
    r_6l = r_n9;
    r_u9 = r_8d;
    r_fk = r_l8;
l_join_x3:;
    if (!(ld8(r_q6_1) == 0u)) goto l_capnp_qm;
    r_rq_12 = away(a_3, 8ull);
    r_52_41 = ld64(r_rq_12);
    if (r_52_41 > 0x3ffffbfull) { r_fo_1 = 0u; r_go_1 = 1u; goto l_capnp_1e_1; }
    r_08_15 = away(a_3, 16ull);
    u64 r_52_42 = ld64(r_08_15);
    if (!(r_52_42 == r_52_41)) { r_w4 = r_52_42; r_61 = r_52_41; goto l_join_e4; }
    u8 r_av_3 = std_alloc_vec_Vec_grow_amortized_9634afabedddd7ee(a_3, 1ull);
    if (!r_av_3) { r_fo_1 = 1u; r_go_1 = 1u; goto l_capnp_1e_1; }
    r_w4 = ld64(r_08_15);
    r_61 = ld64(r_rq_12);
l_join_e4:;
    u8 *r_fx_16 = ldp(a_3);
    st8(away(r_fx_16, r_61), 10u);
    stp(a_3, r_fx_16);
    st64(r_rq_12, (r_61 + 1ull));
    st64(r_08_15, r_w4);
    r_fo_1 = 0u;
    r_go_1 = 0u;
l_capnp_1e_1:;
    st8(r_q6_1, r_go_1);
    st8(away(a_3, 26ull), r_fo_1);
l_capnp_qm:;
    r_t8 = (u16)r_sq;
    st64((slot_3 + 56), 0ull);
    st64((slot_4 + 56), 0ull);
    switch (r_co) {
    case 2u: goto l_arm_wt;
    case 4u: goto l_arm_0q;
    case 5u: goto l_arm_pg;
    case 0u: goto l_capnp_zr;
    case 1u: goto l_capnp_zr;
    case 3u: goto l_capnp_zr;
    default: goto l_default_e1;
    }
l_arm_wt:;
    st64(slot_3, r_eg);
    stp((slot_3 + 8), r_rv);
    st64((slot_3 + 16), r_qw);
    st64((slot_3 + 24), r_fk);
    stp((slot_3 + 32), r_u9);
    st64((slot_3 + 40), r_6l);
    st32((slot_3 + 48), (r_7q + (r_sq & 65535u)));
    st32((slot_3 + 52), 0u);
    st32((slot_3 + 56), ((r_5k_1 == 0x80000000u) ? 0x80000000u : (r_5k_1 + 0xffffffffu)));
    capnp_show_show_lines_show_pointers_5ccc1be374b2e488(slot_3, (u32)r_zg, 0u, a_2, a_3);
    goto l_capnp_zr;
l_arm_0q:;
    st64(slot_4, r_eg);
    stp((slot_4 + 8), r_rv);
    st64((slot_4 + 16), r_qw);
    st64((slot_4 + 24), r_fk);
    stp((slot_4 + 32), r_u9);
    st64((slot_4 + 40), r_6l);
    st32((slot_4 + 48), r_7q);
    st32((slot_4 + 52), r_e0);
    st32((slot_4 + 56), ((r_5k_1 == 0x80000000u) ? 0x80000000u : (r_5k_1 + 0xffffffffu)));
    capnp_show_show_lines_show_pointers_5ccc1be374b2e488(slot_4, r_sq, 1u, a_2, a_3);
    goto l_capnp_zr;
l_arm_pg:;
    r_mx = ((r_5k_1 == 0x80000000u) ? 0x80000000u : (r_5k_1 + 0xffffffffu));
    memset(slot_2, 0u, 64);
    r_az_1 = (r_sq & 65535u);
    r_00 = (u32)r_zg;
    r_68_1 = (r_az_1 + r_00);
    if (r_68_1 == 0u) goto l_capnp_8g_1;
    if (!(a_2 == 0u)) goto l_join_rh;
    capnp_show_show_lines_Lines_write_depth_cut(a_3, r_ls);
    goto l_capnp_8g_1;
l_join_rh:;
    if (r_ls == 0u) goto l_after_mr;
    r_x5 = (slot_1 + 8);
    r_zd = (slot_1 + 16);
    r_lk_1 = (slot_1 + 24);
    r_nk = (slot_1 + 28);
    r_xm = away(a_3, 32ull);
    r_t9 = away(a_3, 48ull);
    r_su_1 = away(a_3, 40ull);
    r_i8_6 = away(a_3, 26ull);
    r_rq_13 = away(a_3, 8ull);
    r_08_16 = away(a_3, 16ull);
    r_x5_1 = (slot_2 + 8);
    r_zd_1 = (slot_2 + 16);
    r_lk_2 = (slot_2 + 24);
    r_89 = (slot_2 + 32);
    r_a8 = (slot_2 + 40);
    r_c4_16 = (slot_2 + 48);
    r_bk = (slot_2 + 52);
    r_6c = (slot_2 + 56);
    wide_v1_1 = (u64)umin32(r_ls, 64u);
    indvars_e9 = 0ull;
l_join_qa:;
    r_zy = ((r_68_1 * (u32)indvars_e9) + r_7q);
    st64(slot_1, r_fk);
    stp(r_x5, r_u9);
    st64(r_zd, r_6l);
    st32(r_lk_1, r_zy);
    st32(r_nk, 0u);
    if (!(ld8(r_q6_1) == 0u)) goto l_capnp_0p;
    u64 r_52_43 = ld64(r_su_1);
    if (!(ld64(r_t9) == r_52_43)) { r_mh = r_52_43; goto l_join_vs; }
    u8 r_5t = std_alloc_vec_Vec_grow_amortized_e6560bd0eee8a70a(r_xm);
    if (!r_5t) { sink_ku = 1u; goto l_capnp_0x; }
    r_mh = ld64(r_su_1);
l_join_vs:;
    st64((ldp(r_xm) + (i64)((u64)(r_mh << 3ull))), ((u64)(indvars_e9 << 32ull) | 1ull));
    st64(r_su_1, (r_mh + 1ull));
    sink_ku = 0u;
l_capnp_0x:;
    st8(r_q6_1, sink_ku);
    st8(r_i8_6, sink_ku);
l_capnp_0p:;
    capnp_show_show_lines_Lines_write_path(a_3);
    capnp_show_show_lines_Lines_write_struct(a_3, slot_1, r_t8, r_zg);
    if (!(ld8(r_q6_1) == 0u)) goto l_capnp_4y;
    r_52_44 = ld64(r_rq_13);
    if (r_52_44 > 0x3ffffbfull) { r_i7_4 = 0u; r_w0_4 = 1u; goto l_capnp_xz_4; }
    u64 r_52_45 = ld64(r_08_16);
    if (!(r_52_45 == r_52_44)) { r_w4_1 = r_52_45; r_61_1 = r_52_44; goto l_join_e4_1; }
    u8 r_av_4 = std_alloc_vec_Vec_grow_amortized_9634afabedddd7ee(a_3, 1ull);
    if (!r_av_4) { r_i7_4 = 1u; r_w0_4 = 1u; goto l_capnp_xz_4; }
    r_w4_1 = ld64(r_08_16);
    r_61_1 = ld64(r_rq_13);
l_join_e4_1:;
    u8 *r_fx_17 = ldp(a_3);
    st8(away(r_fx_17, r_61_1), 10u);
    stp(a_3, r_fx_17);
    st64(r_rq_13, (r_61_1 + 1ull));
    st64(r_08_16, r_w4_1);
    r_i7_4 = 0u;
    r_w0_4 = 0u;
l_capnp_xz_4:;
    st8(r_q6_1, r_w0_4);
    st8(r_i8_6, r_i7_4);
l_capnp_4y:;
    st64(slot_2, r_eg);
    stp(r_x5_1, r_rv);
    st64(r_zd_1, r_qw);
    st64(r_lk_2, r_fk);
    stp(r_89, r_u9);
    st64(r_a8, r_6l);
    st32(r_c4_16, (r_zy + r_az_1));
    st32(r_bk, 0u);
    st32(r_6c, r_mx);
    capnp_show_show_lines_show_pointers_5ccc1be374b2e488(slot_2, r_00, 0u, a_2, a_3);
    r_52_46 = ld64(r_su_1);
    if (r_52_46 == 0ull) goto l_capnp_4g_1;
    st64(r_su_1, (r_52_46 + 0xffffffffffffffffull));
l_capnp_4g_1:;
    u64 indvars_r7_1 = (indvars_e9 + 1ull);
    if (!(indvars_r7_1 == wide_v1_1)) { indvars_e9 = indvars_r7_1; goto l_join_qa; }
l_after_mr:;
    capnp_show_show_lines_Lines_write_list_cut(a_3, (r_ls > 64u));
l_capnp_8g_1:;
l_capnp_zr:;
    goto l_common_68;
l_switch_44:;
    r_k2 = ld64((((u8 *)switch_table_capnp_canon_inputs_report_refusal_51) + (i64)(8 * r_50)));
    r_os = ldp((((u8 *)switch_table_capnp_canon_inputs_report_refusal_50) + (i64)(8 * r_50)));
l_capnp_ew:;
    capnp_show_show_lines_Lines_write_refusal(a_3, r_os, r_k2);
    goto l_common_68;
}

/* capnp_show::show::lines::Lines::write_path */
static void capnp_show_show_lines_Lines_write_path(u8 *a_1)
{
    u8 *r_q6;
    u8 *r_rq;
    u64 r_52;
    u8 *r_08;
    u64 r_y1;
    u64 r_pz;
    u64 r_5b;
    u8 *r_fx;
    u8 *r_2b;
    u64 r_51;
    u8 r_fo;
    u8 r_go;
    capnp_show_show_lines_Lines_begin(a_1, 0u);
    r_q6 = away(a_1, 25ull);
    if (!(ld8(r_q6) == 0u)) goto l_capnp_68;
    struct s_i8_i8 r_gb = capnp_show_show_path_push_path(a_1, ldp(away(a_1, 32ull)), ld64(away(a_1, 40ull)));
    u8 r_kp = r_gb.f0;
    st8(r_q6, r_kp);
    st8(away(a_1, 26ull), r_gb.f1);
    if (!((u8)(ld8(away(a_1, 81ull)) & 1) ? (r_kp == 0u) : 0u)) goto l_capnp_68;
    r_rq = away(a_1, 8ull);
    r_52 = ld64(r_rq);
    if (r_52 > 0x3ffffbcull) { r_fo = 0u; r_go = 1u; goto l_capnp_1e; }
    r_08 = away(a_1, 16ull);
    u64 r_52_1 = ld64(r_08);
    if (!((r_52_1 - r_52) < 4ull)) { r_y1 = r_52_1; r_pz = r_52; goto l_join_tt; }
    u8 r_t3 = std_alloc_vec_Vec_grow_amortized_9634afabedddd7ee(a_1, 4ull);
    if (!r_t3) { r_fo = 1u; r_go = 1u; goto l_capnp_1e; }
    r_y1 = ld64(r_08);
    r_pz = ld64(r_rq);
l_join_tt:;
    r_5b = (r_pz + 4ull);
    r_fx = ldp(a_1);
    r_2b = away(r_fx, r_pz);
    if (((u64)(uptr)r_2b - (u64)(uptr)((u8 *)g_static_266)) < 4ull) { r_51 = 0ull; goto l_join_fz; }
    st32(r_2b, 0x6d305b1bu);
    goto l_core_ga;
l_join_fz:;
    st8((r_2b + (i64)(r_51)), ld8((((u8 *)g_static_266) + (i64)(r_51))));
    u64 r_c4 = (r_51 + 1ull);
    if (!(r_c4 == 4ull)) { r_51 = r_c4; goto l_join_fz; }
l_core_ga:;
    stp(a_1, r_fx);
    st64(r_rq, r_5b);
    st64(r_08, r_y1);
    r_fo = 0u;
    r_go = 0u;
l_capnp_1e:;
    st8(r_q6, r_go);
    st8(away(a_1, 26ull), r_fo);
l_capnp_68:;
    return;
}

/* capnp_show::show::lines::Lines::begin */
static void capnp_show_show_lines_Lines_begin(u8 *a_1, u8 a_2)
{
    u64 switch_xq;
    u8 *r_q6;
    u8 *r_rq;
    u64 r_52;
    u8 *r_08;
    u64 r_c0;
    u64 r_54;
    u64 r_x4;
    u8 *r_fx;
    u8 *r_2b;
    u64 r_ap;
    u8 r_e7;
    struct s_i8_i8 r_o6;
    u8 *r_i8;
    u64 r_52_2;
    u8 *r_08_1;
    u64 r_0h;
    u64 r_14;
    u8 r_ws;
    u8 r_ak;
    if (!(u8)(ld8(away(a_1, 81ull)) & 1)) goto l_join_68;
    switch_xq = ld64((((u8 *)switch_table_capnp_show_show_lines_Lines_begin) + (i64)(8 * (u64)a_2)));
    r_q6 = away(a_1, 25ull);
    if (!(ld8(r_q6) == 0u)) goto l_join_68;
    r_rq = away(a_1, 8ull);
    r_52 = ld64(r_rq);
    if (r_52 > 0x3ffffbeull) { r_e7 = 0u; goto l_arm_n5; }
    r_08 = away(a_1, 16ull);
    u64 r_52_1 = ld64(r_08);
    if (!((r_52_1 - r_52) < 2ull)) { r_c0 = r_52_1; r_54 = r_52; goto l_join_p3; }
    u8 r_2c = std_alloc_vec_Vec_grow_amortized_9634afabedddd7ee(a_1, 2ull);
    if (!r_2c) { r_e7 = 1u; goto l_arm_n5; }
    r_c0 = ld64(r_08);
    r_54 = ld64(r_rq);
l_join_p3:;
    r_x4 = (r_54 + 2ull);
    r_fx = ldp(a_1);
    r_2b = away(r_fx, r_54);
    if (((u64)(uptr)r_2b - (u64)(uptr)((u8 *)g_static_261)) < 2ull) { r_ap = 0ull; goto l_join_je; }
    st16(r_2b, 23323u);
    goto l_arm_f0;
l_join_je:;
    st8((r_2b + (i64)(r_ap)), ld8((((u8 *)g_static_261) + (i64)(r_ap))));
    u64 r_c4 = (r_ap + 1ull);
    if (!(r_c4 == 2ull)) { r_ap = r_c4; goto l_join_je; }
l_arm_f0:;
    stp(a_1, r_fx);
    st64(r_rq, r_x4);
    st64(r_08, r_c0);
    struct s_i8_i8 r_jj = capnp_show_show_text_Text_push_number(a_1, switch_xq);
    r_o6 = r_jj;
    goto l_capnp_rc;
l_arm_n5:;
    struct s_i8_i8 t_fj = (struct s_i8_i8){ 1u, 0u };
    t_fj.f1 = r_e7;
    r_o6 = t_fj;
l_capnp_rc:;
    u8 r_kp = r_o6.f0;
    st8(r_q6, r_kp);
    r_i8 = away(a_1, 26ull);
    st8(r_i8, r_o6.f1);
    if (!(r_kp == 0u)) goto l_join_68;
    r_52_2 = ld64(r_rq);
    if (r_52_2 > 0x3ffffbfull) { r_ws = 0u; r_ak = 1u; goto l_capnp_62; }
    r_08_1 = away(a_1, 16ull);
    u64 r_52_3 = ld64(r_08_1);
    if (!(r_52_3 == r_52_2)) { r_0h = r_52_3; r_14 = r_52_2; goto l_join_vk; }
    u8 r_av = std_alloc_vec_Vec_grow_amortized_9634afabedddd7ee(a_1, 1ull);
    if (!r_av) { r_ws = 1u; r_ak = 1u; goto l_capnp_62; }
    r_0h = ld64(r_08_1);
    r_14 = ld64(r_rq);
l_join_vk:;
    u8 *r_fx_1 = ldp(a_1);
    st8(away(r_fx_1, r_14), 109u);
    stp(a_1, r_fx_1);
    st64(r_rq, (r_14 + 1ull));
    st64(r_08_1, r_0h);
    r_ws = 0u;
    r_ak = 0u;
l_capnp_62:;
    st8(r_q6, r_ak);
    st8(r_i8, r_ws);
l_join_68:;
    return;
}

/* capnp_show::show::path::push_path */
static struct s_i8_i8 capnp_show_show_path_push_path(u8 *a_1, u8 *a_2, u64 a_3)
{
    u8 *r_rq;
    u8 *r_08;
    u64 r_52;
    u8 *r_08_1;
    u64 r_y1;
    u64 r_pz;
    u64 r_5b;
    u8 *r_fx;
    u8 *r_2b;
    u64 r_it;
    u64 r_h0;
    u8 *r_8z;
    u64 r_52_2;
    u64 r_rk;
    u64 r_aq;
    u64 r_24;
    u64 r_52_4;
    u64 r_yw;
    u64 r_xb;
    u8 r_e7;
    struct s_i8_i8 r_yu;
    u64 r_52_6;
    u64 r_f8;
    u64 r_jb;
    u8 r_so;
    u8 r_28;
    struct s_i8_i8 r_pg;
    u8 r_fu;
    u8 r_vh;
    r_rq = away(a_1, 8ull);
    if (a_3 == 0ull) goto l_then_f0;
    r_08 = away(a_1, 16ull);
    r_h0 = 0ull;
    goto l_join_um;
l_then_f0:;
    r_52 = ld64(r_rq);
    if (r_52 > 0x3ffffbcull) { r_fu = 0u; r_vh = 1u; goto l_return_4x; }
    r_08_1 = away(a_1, 16ull);
    u64 r_52_1 = ld64(r_08_1);
    if (!((r_52_1 - r_52) < 4ull)) { r_y1 = r_52_1; r_pz = r_52; goto l_join_tt; }
    u8 r_t3 = std_alloc_vec_Vec_grow_amortized_9634afabedddd7ee(a_1, 4ull);
    if (!r_t3) { r_fu = 1u; r_vh = 1u; goto l_return_4x; }
    r_y1 = ld64(r_08_1);
    r_pz = ld64(r_rq);
l_join_tt:;
    r_5b = (r_pz + 4ull);
    r_fx = ldp(a_1);
    r_2b = away(r_fx, r_pz);
    if (((u64)(uptr)r_2b - (u64)(uptr)((u8 *)g_static_263)) < 4ull) { r_it = 0ull; goto l_join_og; }
    st32(r_2b, 0x746f6f72u);
    goto l_core_x2;
l_join_og:;
    st8((r_2b + (i64)(r_it)), ld8((((u8 *)g_static_263) + (i64)(r_it))));
    u64 r_c4 = (r_it + 1ull);
    if (!(r_c4 == 4ull)) { r_it = r_c4; goto l_join_og; }
l_core_x2:;
    stp(a_1, r_fx);
    st64(r_rq, r_5b);
    st64(r_08_1, r_y1);
    r_fu = 0u;
    r_vh = 0u;
    goto l_return_4x;
l_loop_90:;
    u64 r_36 = (r_h0 + 1ull);
    if (r_36 == a_3) { r_fu = 0u; r_vh = 0u; goto l_return_4x; }
    r_h0 = r_36;
l_join_um:;
    r_8z = away(a_2, (u64)(r_h0 << 3ull));
    if (r_h0 == 0ull) goto l_join_ka;
    r_52_2 = ld64(r_rq);
    if (r_52_2 > 0x3ffffbfull) { r_fu = 0u; r_vh = 1u; goto l_return_4x; }
    u64 r_52_3 = ld64(r_08);
    if (!(r_52_3 == r_52_2)) { r_rk = r_52_3; r_aq = r_52_2; goto l_join_le; }
    u8 r_av = std_alloc_vec_Vec_grow_amortized_9634afabedddd7ee(a_1, 1ull);
    if (!r_av) { r_fu = 1u; r_vh = 1u; goto l_return_4x; }
    r_rk = ld64(r_08);
    r_aq = ld64(r_rq);
l_join_le:;
    u8 *r_fx_1 = ldp(a_1);
    st8(away(r_fx_1, r_aq), 46u);
    stp(a_1, r_fx_1);
    st64(r_rq, (r_aq + 1ull));
    st64(r_08, r_rk);
l_join_ka:;
    r_24 = (u64)ld32((r_8z + 4));
    if ((u8)(ld8(r_8z) & 1)) goto l_join_jy;
    struct s_i8_i8 r_zo = capnp_show_show_text_Text_push_number(a_1, r_24);
    r_pg = r_zo;
    goto l_capnp_6i;
l_join_jy:;
    r_52_4 = ld64(r_rq);
    if (r_52_4 > 0x3ffffbfull) { r_e7 = 0u; goto l_arm_n5; }
    u64 r_52_5 = ld64(r_08);
    if (!(r_52_5 == r_52_4)) { r_yw = r_52_5; r_xb = r_52_4; goto l_join_uq; }
    u8 r_av_1 = std_alloc_vec_Vec_grow_amortized_9634afabedddd7ee(a_1, 1ull);
    if (!r_av_1) { r_e7 = 1u; goto l_arm_n5; }
    r_yw = ld64(r_08);
    r_xb = ld64(r_rq);
l_join_uq:;
    u8 *r_fx_2 = ldp(a_1);
    st8(away(r_fx_2, r_xb), 91u);
    stp(a_1, r_fx_2);
    st64(r_rq, (r_xb + 1ull));
    st64(r_08, r_yw);
    struct s_i8_i8 r_zo_1 = capnp_show_show_text_Text_push_number(a_1, r_24);
    r_yu = r_zo_1;
    goto l_capnp_v4;
l_arm_n5:;
    struct s_i8_i8 t_fj = (struct s_i8_i8){ 1u, 0u };
    t_fj.f1 = r_e7;
    r_yu = t_fj;
l_capnp_v4:;
    if (!(r_yu.f0 == 0u)) goto l_arm_ev;
    r_52_6 = ld64(r_rq);
    if (r_52_6 > 0x3ffffbfull) { r_so = 0u; r_28 = 1u; goto l_capnp_ri; }
    u64 r_52_7 = ld64(r_08);
    if (!(r_52_7 == r_52_6)) { r_f8 = r_52_7; r_jb = r_52_6; goto l_join_wo; }
    u8 r_av_2 = std_alloc_vec_Vec_grow_amortized_9634afabedddd7ee(a_1, 1ull);
    if (!r_av_2) { r_so = 1u; r_28 = 1u; goto l_capnp_ri; }
    r_f8 = ld64(r_08);
    r_jb = ld64(r_rq);
l_join_wo:;
    u8 *r_fx_3 = ldp(a_1);
    st8(away(r_fx_3, r_jb), 93u);
    stp(a_1, r_fx_3);
    st64(r_rq, (r_jb + 1ull));
    st64(r_08, r_f8);
    r_so = 0u;
    r_28 = 0u;
l_capnp_ri:;
    struct s_i8_i8 t_3j = (struct s_i8_i8){ 0 };
    t_3j.f0 = r_28;
    struct s_i8_i8 t_0d = t_3j;
    t_0d.f1 = r_so;
    r_pg = t_0d;
    goto l_capnp_6i;
l_arm_ev:;
    struct s_i8_i8 t_fj_1 = (struct s_i8_i8){ 1u, 0u };
    t_fj_1.f1 = r_yu.f1;
    r_pg = t_fj_1;
l_capnp_6i:;
    if (r_pg.f0 == 0u) goto l_loop_90;
    r_fu = r_pg.f1;
    r_vh = 1u;
l_return_4x:;
    struct s_i8_i8 r_3j = (struct s_i8_i8){ 0 };
    r_3j.f0 = r_vh;
    struct s_i8_i8 r_9n = r_3j;
    r_9n.f1 = r_fu;
    return r_9n;
}

/* capnp_show::show::lines::Lines::write_place */
static void capnp_show_show_lines_Lines_write_place(u8 *a_1, u64 a_2, u32 a_3)
{
    u8 *r_q6;
    u8 *r_rq;
    u64 r_52;
    u8 *r_08;
    u64 r_20;
    u64 r_j8;
    u8 r_fo;
    u8 r_go;
    u8 *r_rq_1;
    u64 r_52_2;
    u8 *r_08_1;
    u64 r_yw;
    u64 r_xb;
    u8 r_e7;
    struct s_i8_i8 r_o6;
    u8 *r_i8;
    u64 r_7l;
    u64 r_52_4;
    u8 *r_08_2;
    u64 r_yp;
    u64 r_yt;
    u8 r_e7_1;
    struct s_i8_i8 r_su;
    u64 r_52_6;
    u8 *r_08_3;
    u64 r_f8;
    u64 r_jb;
    u8 r_i7;
    u8 t_w0;
    u8 r_os;
    u8 r_mq;
    u8 *r_rq_2;
    u64 r_52_8;
    u8 *r_08_4;
    u64 r_y1;
    u64 r_pz;
    u64 r_5b;
    u8 *r_fx_4;
    u8 *r_2b;
    u64 r_51;
    u8 r_fo_1;
    u8 r_go_1;
    r_q6 = away(a_1, 25ull);
    if (!(ld8(r_q6) == 0u)) goto l_capnp_2z;
    r_rq = away(a_1, 8ull);
    r_52 = ld64(r_rq);
    if (r_52 > 0x3ffffbfull) { r_fo = 0u; r_go = 1u; goto l_capnp_1e; }
    r_08 = away(a_1, 16ull);
    u64 r_52_1 = ld64(r_08);
    if (!(r_52_1 == r_52)) { r_20 = r_52_1; r_j8 = r_52; goto l_join_jz; }
    u8 r_av = std_alloc_vec_Vec_grow_amortized_9634afabedddd7ee(a_1, 1ull);
    if (!r_av) { r_fo = 1u; r_go = 1u; goto l_capnp_1e; }
    r_20 = ld64(r_08);
    r_j8 = ld64(r_rq);
l_join_jz:;
    u8 *r_fx = ldp(a_1);
    st8(away(r_fx, r_j8), 32u);
    stp(a_1, r_fx);
    st64(r_rq, (r_j8 + 1ull));
    st64(r_08, r_20);
    r_fo = 0u;
    r_go = 0u;
l_capnp_1e:;
    st8(r_q6, r_go);
    st8(away(a_1, 26ull), r_fo);
l_capnp_2z:;
    capnp_show_show_lines_Lines_begin(a_1, 1u);
    if (!(ld8(r_q6) == 0u)) { r_mq = 1u; goto l_capnp_rd; }
    r_rq_1 = away(a_1, 8ull);
    r_52_2 = ld64(r_rq_1);
    if (r_52_2 > 0x3ffffbfull) { r_e7 = 0u; goto l_arm_n5; }
    r_08_1 = away(a_1, 16ull);
    u64 r_52_3 = ld64(r_08_1);
    if (!(r_52_3 == r_52_2)) { r_yw = r_52_3; r_xb = r_52_2; goto l_join_uq; }
    u8 r_7w = std_alloc_vec_Vec_grow_amortized_9634afabedddd7ee(a_1, 1ull);
    if (!r_7w) { r_e7 = 1u; goto l_arm_n5; }
    r_yw = ld64(r_08_1);
    r_xb = ld64(r_rq_1);
l_join_uq:;
    u8 *r_fx_1 = ldp(a_1);
    st8(away(r_fx_1, r_xb), 91u);
    stp(a_1, r_fx_1);
    st64(r_rq_1, (r_xb + 1ull));
    st64(r_08_1, r_yw);
    struct s_i8_i8 r_vc = capnp_show_show_text_Text_push_number(a_1, a_2);
    r_o6 = r_vc;
    goto l_capnp_rc;
l_arm_n5:;
    struct s_i8_i8 t_fj = (struct s_i8_i8){ 1u, 0u };
    t_fj.f1 = r_e7;
    r_o6 = t_fj;
l_capnp_rc:;
    u8 r_kp = r_o6.f0;
    st8(r_q6, r_kp);
    r_i8 = away(a_1, 26ull);
    st8(r_i8, r_o6.f1);
    r_7l = (u64)a_3;
    if (!(r_kp == 0u)) { r_mq = 1u; goto l_capnp_rd; }
    r_52_4 = ld64(r_rq_1);
    if (r_52_4 > 0x3ffffbfull) { r_e7_1 = 0u; goto l_arm_n5_1; }
    r_08_2 = away(a_1, 16ull);
    u64 r_52_5 = ld64(r_08_2);
    if (!(r_52_5 == r_52_4)) { r_yp = r_52_5; r_yt = r_52_4; goto l_join_s0; }
    u8 r_7w_1 = std_alloc_vec_Vec_grow_amortized_9634afabedddd7ee(a_1, 1ull);
    if (!r_7w_1) { r_e7_1 = 1u; goto l_arm_n5_1; }
    r_yp = ld64(r_08_2);
    r_yt = ld64(r_rq_1);
l_join_s0:;
    u8 *r_fx_2 = ldp(a_1);
    st8(away(r_fx_2, r_yt), 58u);
    stp(a_1, r_fx_2);
    st64(r_rq_1, (r_yt + 1ull));
    st64(r_08_2, r_yp);
    struct s_i8_i8 r_zo = capnp_show_show_text_Text_push_number(a_1, r_7l);
    r_su = r_zo;
    goto l_capnp_kx;
l_arm_n5_1:;
    struct s_i8_i8 t_fj_1 = (struct s_i8_i8){ 1u, 0u };
    t_fj_1.f1 = r_e7_1;
    r_su = t_fj_1;
l_capnp_kx:;
    u8 r_kp_1 = r_su.f0;
    st8(r_q6, r_kp_1);
    st8(r_i8, r_su.f1);
    if (!(r_kp_1 == 0u)) { r_mq = 1u; goto l_capnp_rd; }
    r_52_6 = ld64(r_rq_1);
    if (r_52_6 > 0x3ffffbfull) { r_i7 = 0u; t_w0 = 1u; r_os = 1u; goto l_capnp_xz; }
    r_08_3 = away(a_1, 16ull);
    u64 r_52_7 = ld64(r_08_3);
    if (!(r_52_7 == r_52_6)) { r_f8 = r_52_7; r_jb = r_52_6; goto l_join_wo; }
    u8 r_av_1 = std_alloc_vec_Vec_grow_amortized_9634afabedddd7ee(a_1, 1ull);
    if (!r_av_1) { r_i7 = 1u; t_w0 = 1u; r_os = 1u; goto l_capnp_xz; }
    r_f8 = ld64(r_08_3);
    r_jb = ld64(r_rq_1);
l_join_wo:;
    u8 *r_fx_3 = ldp(a_1);
    st8(away(r_fx_3, r_jb), 93u);
    stp(a_1, r_fx_3);
    st64(r_rq_1, (r_jb + 1ull));
    st64(r_08_3, r_f8);
    r_i7 = 0u;
    t_w0 = 0u;
    r_os = 0u;
l_capnp_xz:;
    st8(r_q6, r_os);
    st8(r_i8, r_i7);
    r_mq = t_w0;
l_capnp_rd:;
    if ((u8)((u8)r_mq | (u8)(u8)((u8)(u8)(ld8(away(a_1, 81ull)) & 1) ^ (u8)1u))) goto l_capnp_68;
    r_rq_2 = away(a_1, 8ull);
    r_52_8 = ld64(r_rq_2);
    if (r_52_8 > 0x3ffffbcull) { r_fo_1 = 0u; r_go_1 = 1u; goto l_capnp_1e_1; }
    r_08_4 = away(a_1, 16ull);
    u64 r_52_9 = ld64(r_08_4);
    if (!((r_52_9 - r_52_8) < 4ull)) { r_y1 = r_52_9; r_pz = r_52_8; goto l_join_tt; }
    u8 r_t3 = std_alloc_vec_Vec_grow_amortized_9634afabedddd7ee(a_1, 4ull);
    if (!r_t3) { r_fo_1 = 1u; r_go_1 = 1u; goto l_capnp_1e_1; }
    r_y1 = ld64(r_08_4);
    r_pz = ld64(r_rq_2);
l_join_tt:;
    r_5b = (r_pz + 4ull);
    r_fx_4 = ldp(a_1);
    r_2b = away(r_fx_4, r_pz);
    if (((u64)(uptr)r_2b - (u64)(uptr)((u8 *)g_static_266)) < 4ull) { r_51 = 0ull; goto l_join_fz; }
    st32(r_2b, 0x6d305b1bu);
    goto l_core_ga;
l_join_fz:;
    st8((r_2b + (i64)(r_51)), ld8((((u8 *)g_static_266) + (i64)(r_51))));
    u64 r_c4 = (r_51 + 1ull);
    if (!(r_c4 == 4ull)) { r_51 = r_c4; goto l_join_fz; }
l_core_ga:;
    stp(a_1, r_fx_4);
    st64(r_rq_2, r_5b);
    st64(r_08_4, r_y1);
    r_fo_1 = 0u;
    r_go_1 = 0u;
l_capnp_1e_1:;
    st8(r_q6, r_go_1);
    st8(away(a_1, 26ull), r_fo_1);
l_capnp_68:;
    return;
}

/* capnp_show::show::lines::Lines::write_part */
static void capnp_show_show_lines_Lines_write_part(u8 *a_1, u8 *a_2, u64 a_3)
{
    u8 *r_q6;
    u8 *r_rq;
    u64 r_52;
    u8 *r_08;
    u64 r_0p;
    u64 r_fj;
    u64 r_zx;
    u8 *r_fx;
    u8 *r_2b;
    u64 r_31;
    u8 r_pp;
    u8 not_1g;
    u8 r_ao;
    u8 *r_rq_1;
    u64 r_52_2;
    u8 *r_08_1;
    u64 r_y1;
    u64 r_pz;
    u64 r_5b;
    u8 *r_fx_1;
    u8 *r_2b_1;
    u64 r_51;
    u8 r_fo;
    u8 r_go;
    capnp_show_show_lines_Lines_begin(a_1, 4u);
    r_q6 = away(a_1, 25ull);
    if (!(ld8(r_q6) == 0u)) goto l_capnp_68;
    r_rq = away(a_1, 8ull);
    r_52 = ld64(r_rq);
    if ((r_52 > 0x3ffffc0ull) ? 1u : ((0x3ffffc0ull - r_52) < a_3)) { r_pp = 0u; not_1g = 0u; r_ao = 1u; goto l_capnp_39; }
    r_08 = away(a_1, 16ull);
    u64 r_52_1 = ld64(r_08);
    if (!(a_3 > (r_52_1 - r_52))) { r_0p = r_52_1; r_fj = r_52; goto l_join_8y; }
    u8 r_7h = std_alloc_vec_Vec_grow_amortized_9634afabedddd7ee(a_1, a_3);
    if (!r_7h) { r_pp = 1u; not_1g = 0u; r_ao = 1u; goto l_capnp_39; }
    r_0p = ld64(r_08);
    r_fj = ld64(r_rq);
l_join_8y:;
    r_zx = (r_fj + a_3);
    r_fx = ldp(a_1);
    memset(r_rq, 0u, 16);
    r_2b = away(r_fx, r_fj);
    if (((u64)(uptr)r_2b - (u64)(uptr)a_2) < a_3) { r_31 = 0ull; goto l_join_sz; }
    memmove_or_none(r_2b, a_2, a_3);
    goto l_core_ga;
l_join_sz:;
    st8((r_2b + (i64)(r_31)), ld8((a_2 + (i64)(r_31))));
    u64 r_c4 = (r_31 + 1ull);
    if (!(r_c4 == a_3)) { r_31 = r_c4; goto l_join_sz; }
l_core_ga:;
    stp(a_1, r_fx);
    st64(r_rq, r_zx);
    st64(r_08, r_0p);
    r_pp = 0u;
    not_1g = 1u;
    r_ao = 0u;
l_capnp_39:;
    st8(r_q6, r_ao);
    st8(away(a_1, 26ull), r_pp);
    if (!(u8)((u8)not_1g & (u8)(u8)(ld8(away(a_1, 81ull)) & 1))) goto l_capnp_68;
    r_rq_1 = away(a_1, 8ull);
    r_52_2 = ld64(r_rq_1);
    if (r_52_2 > 0x3ffffbcull) { r_fo = 0u; r_go = 1u; goto l_capnp_1e; }
    r_08_1 = away(a_1, 16ull);
    u64 r_52_3 = ld64(r_08_1);
    if (!((r_52_3 - r_52_2) < 4ull)) { r_y1 = r_52_3; r_pz = r_52_2; goto l_join_tt; }
    u8 r_t3 = std_alloc_vec_Vec_grow_amortized_9634afabedddd7ee(a_1, 4ull);
    if (!r_t3) { r_fo = 1u; r_go = 1u; goto l_capnp_1e; }
    r_y1 = ld64(r_08_1);
    r_pz = ld64(r_rq_1);
l_join_tt:;
    r_5b = (r_pz + 4ull);
    r_fx_1 = ldp(a_1);
    r_2b_1 = away(r_fx_1, r_pz);
    if (((u64)(uptr)r_2b_1 - (u64)(uptr)((u8 *)g_static_266)) < 4ull) { r_51 = 0ull; goto l_join_fz; }
    st32(r_2b_1, 0x6d305b1bu);
    goto l_core_ga_1;
l_join_fz:;
    st8((r_2b_1 + (i64)(r_51)), ld8((((u8 *)g_static_266) + (i64)(r_51))));
    u64 r_c4_1 = (r_51 + 1ull);
    if (!(r_c4_1 == 4ull)) { r_51 = r_c4_1; goto l_join_fz; }
l_core_ga_1:;
    stp(a_1, r_fx_1);
    st64(r_rq_1, r_5b);
    st64(r_08_1, r_y1);
    r_fo = 0u;
    r_go = 0u;
l_capnp_1e:;
    st8(r_q6, r_go);
    st8(away(a_1, 26ull), r_fo);
l_capnp_68:;
    return;
}

/* capnp_show::show::lines::Lines::write_struct */
static void capnp_show_show_lines_Lines_write_struct(u8 *a_1, u8 *a_2, u16 a_3, u16 a_4)
{
    u64 r_tp;
    u8 *r_rv;
    u64 r_qw;
    u32 r_5k;
    u8 *r_q6;
    u8 *r_rq;
    u64 r_52;
    u8 *r_08;
    u64 r_0s;
    u64 r_nq;
    u64 r_xe_1;
    u8 *r_fx;
    u8 *r_2b;
    u64 r_ca;
    u8 r_xe;
    u8 t_ei;
    u8 r_bl;
    u8 *r_rq_1;
    u64 r_52_2;
    u8 *r_08_1;
    u64 r_8e;
    u64 r_ue;
    u64 r_hc;
    u8 *r_fx_1;
    u8 *r_2b_1;
    u64 r_e1;
    u8 r_fo;
    u8 r_go;
    u32 a_61;
    u8 *r_rq_2;
    u8 *r_08_2;
    u8 *r_i8;
    u64 r_gw;
    u8 r_76;
    u32 r_if;
    u64 i_5e;
    u8 *static_oq;
    u64 r_52_5;
    u64 r_4b;
    u64 r_19;
    u64 r_qh;
    u8 *r_fx_2;
    u8 *r_2b_2;
    u64 r_es;
    u8 r_i7;
    u8 r_w0;
    u8 r_st;
    u64 r_24;
    u64 r_lk;
    u8 r_as;
    u64 r_52_7;
    u64 r_20;
    u64 r_j8;
    u8 r_i7_1;
    u8 r_w0_1;
    r_tp = ld64(a_2);
    r_rv = ldp((a_2 + 8));
    r_qw = ld64((a_2 + 16));
    r_5k = ld32((a_2 + 24));
    r_q6 = away(a_1, 25ull);
    if (!(ld8(r_q6) == 0u)) goto l_capnp_mn;
    r_rq = away(a_1, 8ull);
    r_52 = ld64(r_rq);
    if (r_52 > 0x3ffffb9ull) { r_xe = 0u; t_ei = 0u; r_bl = 1u; goto l_capnp_7e; }
    r_08 = away(a_1, 16ull);
    u64 r_52_1 = ld64(r_08);
    if (!((r_52_1 - r_52) < 7ull)) { r_0s = r_52_1; r_nq = r_52; goto l_join_me; }
    u8 r_f5 = std_alloc_vec_Vec_grow_amortized_9634afabedddd7ee(a_1, 7ull);
    if (!r_f5) { r_xe = 1u; t_ei = 0u; r_bl = 1u; goto l_capnp_7e; }
    r_0s = ld64(r_08);
    r_nq = ld64(r_rq);
l_join_me:;
    r_xe_1 = (r_nq + 7ull);
    r_fx = ldp(a_1);
    r_2b = away(r_fx, r_nq);
    if (((u64)(uptr)r_2b - (u64)(uptr)((u8 *)g_static_281)) < 7ull) { r_ca = 0ull; goto l_join_mp; }
    mv7(r_2b, ((u8 *)g_static_281));
    goto l_core_ga;
l_join_mp:;
    st8((r_2b + (i64)(r_ca)), ld8((((u8 *)g_static_281) + (i64)(r_ca))));
    u64 r_c4 = (r_ca + 1ull);
    if (!(r_c4 == 7ull)) { r_ca = r_c4; goto l_join_mp; }
l_core_ga:;
    stp(a_1, r_fx);
    st64(r_rq, r_xe_1);
    st64(r_08, r_0s);
    r_xe = 0u;
    t_ei = 1u;
    r_bl = 0u;
l_capnp_7e:;
    st8(r_q6, r_bl);
    st8(away(a_1, 26ull), r_xe);
    if ((u8)(ld8(away(a_1, 80ull)) & 1)) goto l_then_fi;
    goto l_capnp_lj;
l_capnp_mn:;
    if ((u8)(ld8(away(a_1, 80ull)) & 1)) goto l_capnp_jh;
    goto l_capnp_lj;
l_then_fi:;
    if (!t_ei) goto l_capnp_jh;
    r_rq_1 = away(a_1, 8ull);
    r_52_2 = ld64(r_rq_1);
    if (r_52_2 > 0x3ffffbdull) { r_fo = 0u; r_go = 1u; goto l_capnp_1e; }
    r_08_1 = away(a_1, 16ull);
    u64 r_52_3 = ld64(r_08_1);
    if (!((r_52_3 - r_52_2) < 3ull)) { r_8e = r_52_3; r_ue = r_52_2; goto l_join_h7; }
    u8 r_52_4 = std_alloc_vec_Vec_grow_amortized_9634afabedddd7ee(a_1, 3ull);
    if (!r_52_4) { r_fo = 1u; r_go = 1u; goto l_capnp_1e; }
    r_8e = ld64(r_08_1);
    r_ue = ld64(r_rq_1);
l_join_h7:;
    r_hc = (r_ue + 3ull);
    r_fx_1 = ldp(a_1);
    r_2b_1 = away(r_fx_1, r_ue);
    if (((u64)(uptr)r_2b_1 - (u64)(uptr)((u8 *)g_static_279)) < 3ull) { r_e1 = 0ull; goto l_join_32; }
    mv3(r_2b_1, ((u8 *)g_static_279));
    goto l_core_ga_1;
l_join_32:;
    st8((r_2b_1 + (i64)(r_e1)), ld8((((u8 *)g_static_279) + (i64)(r_e1))));
    u64 r_c4_1 = (r_e1 + 1ull);
    if (!(r_c4_1 == 3ull)) { r_e1 = r_c4_1; goto l_join_32; }
l_core_ga_1:;
    stp(a_1, r_fx_1);
    st64(r_rq_1, r_hc);
    st64(r_08_1, r_8e);
    r_fo = 0u;
    r_go = 0u;
l_capnp_1e:;
    st8(r_q6, r_go);
    st8(away(a_1, 26ull), r_fo);
l_capnp_jh:;
    capnp_show_show_lines_Lines_write_place(a_1, r_tp, r_5k);
l_capnp_lj:;
    capnp_show_show_lines_Lines_write_sizes(a_1, a_3, a_4);
    a_61 = (u32)umin16(a_3, 64u);
    if (a_3 == 0u) goto l_capnp_68;
    r_rq_2 = away(a_1, 8ull);
    r_08_2 = away(a_1, 16ull);
    r_i8 = away(a_1, 26ull);
    r_gw = (u64)(r_qw >> 3ull);
    r_76 = ld8(r_q6);
    r_if = 0u;
l_join_vb:;
    u8 r_2p = (r_if == 0u);
    i_5e = (r_2p ? 4ull : 3ull);
    static_oq = (r_2p ? ((u8 *)g_static_284) : ((u8 *)g_static_285));
    if (!(r_76 == 0u)) { r_st = r_76; goto l_capnp_k6; }
    r_52_5 = ld64(r_rq_2);
    if ((r_52_5 > 0x3ffffc0ull) ? 1u : ((0x3ffffc0ull - r_52_5) < i_5e)) { r_i7 = 0u; r_w0 = 1u; goto l_capnp_xz; }
    u64 r_52_6 = ld64(r_08_2);
    if (!(i_5e > (r_52_6 - r_52_5))) { r_4b = r_52_6; r_19 = r_52_5; goto l_join_ue; }
    u8 r_ku = std_alloc_vec_Vec_grow_amortized_9634afabedddd7ee(a_1, i_5e);
    if (!r_ku) { r_i7 = 1u; r_w0 = 1u; goto l_capnp_xz; }
    r_4b = ld64(r_08_2);
    r_19 = ld64(r_rq_2);
l_join_ue:;
    r_qh = (r_19 + i_5e);
    r_fx_2 = ldp(a_1);
    r_2b_2 = away(r_fx_2, r_19);
    if (((u64)(uptr)r_2b_2 - (u64)(uptr)static_oq) < i_5e) { r_es = 0ull; goto l_join_fx; }
    memcpy_or_none(r_2b_2, static_oq, i_5e);
    goto l_core_ga_2;
l_join_fx:;
    st8((r_2b_2 + (i64)(r_es)), ld8((static_oq + (i64)(r_es))));
    u64 r_c4_2 = (r_es + 1ull);
    if (!(r_c4_2 == i_5e)) { r_es = r_c4_2; goto l_join_fx; }
l_core_ga_2:;
    stp(a_1, r_fx_2);
    st64(r_rq_2, r_qh);
    st64(r_08_2, r_4b);
    r_i7 = 0u;
    r_w0 = 0u;
l_capnp_xz:;
    st8(r_q6, r_w0);
    st8(r_i8, r_i7);
    r_st = r_w0;
l_capnp_k6:;
    r_24 = (u64)uadd_sat32(r_if, r_5k);
    if (!(r_gw > r_24)) { r_lk = 0ull; goto l_capnp_pz; }
    r_lk = ld64(away(r_rv, (u64)(r_24 << 3ull)));
l_capnp_pz:;
    if (!(r_st == 0u)) { r_as = r_st; goto l_capnp_4a; }
    struct s_i8_i8 r_86 = capnp_show_show_text_Text_push_hex_number(a_1, r_lk);
    u8 r_kp = r_86.f0;
    st8(r_q6, r_kp);
    st8(r_i8, r_86.f1);
    r_as = r_kp;
l_capnp_4a:;
    u32 r_ff = (r_if + 1u);
    if (!(r_ff == a_61)) { r_76 = r_as; r_if = r_ff; goto l_join_vb; }
    if (!(a_3 > 64u)) goto l_capnp_68;
    if (!(r_as == 0u)) goto l_capnp_2r;
    r_52_7 = ld64(r_rq_2);
    if (r_52_7 > 0x3ffffbfull) { r_i7_1 = 0u; r_w0_1 = 1u; goto l_capnp_xz_1; }
    u64 r_52_8 = ld64(r_08_2);
    if (!(r_52_8 == r_52_7)) { r_20 = r_52_8; r_j8 = r_52_7; goto l_join_jz; }
    u8 r_av = std_alloc_vec_Vec_grow_amortized_9634afabedddd7ee(a_1, 1ull);
    if (!r_av) { r_i7_1 = 1u; r_w0_1 = 1u; goto l_capnp_xz_1; }
    r_20 = ld64(r_08_2);
    r_j8 = ld64(r_rq_2);
l_join_jz:;
    u8 *r_fx_3 = ldp(a_1);
    st8(away(r_fx_3, r_j8), 32u);
    stp(a_1, r_fx_3);
    st64(r_rq_2, (r_j8 + 1ull));
    st64(r_08_2, r_20);
    r_i7_1 = 0u;
    r_w0_1 = 0u;
l_capnp_xz_1:;
    st8(r_q6, r_w0_1);
    st8(r_i8, r_i7_1);
l_capnp_2r:;
    capnp_show_show_lines_Lines_write_part(a_1, ((u8 *)g_static_280), 2ull);
l_capnp_68:;
    return;
}

/* capnp_show::show::lines::Lines::write_sizes */
static void capnp_show_show_lines_Lines_write_sizes(u8 *a_1, u16 a_2, u16 a_3)
{
    u64 r_bi;
    u8 *r_q6;
    u8 *r_rq;
    u64 r_52;
    u8 *r_08;
    u64 r_0s;
    u64 r_nq;
    u64 r_xe;
    u8 *r_fx;
    u8 *r_2b;
    u64 r_a7;
    u8 r_e7;
    struct s_i8_i8 r_o6;
    u8 *r_i8;
    u64 r_bi_1;
    u64 r_52_2;
    u8 *r_08_1;
    u64 r_4b;
    u64 r_jh;
    u64 r_sb;
    u8 *r_fx_1;
    u8 *r_2b_1;
    u64 r_w5;
    u8 r_e7_1;
    struct s_i8_i8 r_su;
    r_bi = (u64)a_2;
    r_q6 = away(a_1, 25ull);
    if (!(ld8(r_q6) == 0u)) goto l_capnp_68;
    r_rq = away(a_1, 8ull);
    r_52 = ld64(r_rq);
    if (r_52 > 0x3ffffb9ull) { r_e7 = 0u; goto l_arm_n5; }
    r_08 = away(a_1, 16ull);
    u64 r_52_1 = ld64(r_08);
    if (!((r_52_1 - r_52) < 7ull)) { r_0s = r_52_1; r_nq = r_52; goto l_join_me; }
    u8 r_vo = std_alloc_vec_Vec_grow_amortized_9634afabedddd7ee(a_1, 7ull);
    if (!r_vo) { r_e7 = 1u; goto l_arm_n5; }
    r_0s = ld64(r_08);
    r_nq = ld64(r_rq);
l_join_me:;
    r_xe = (r_nq + 7ull);
    r_fx = ldp(a_1);
    r_2b = away(r_fx, r_nq);
    if (((u64)(uptr)r_2b - (u64)(uptr)((u8 *)g_static_282)) < 7ull) { r_a7 = 0ull; goto l_join_5u; }
    mv7(r_2b, ((u8 *)g_static_282));
    goto l_arm_na;
l_join_5u:;
    st8((r_2b + (i64)(r_a7)), ld8((((u8 *)g_static_282) + (i64)(r_a7))));
    u64 r_c4 = (r_a7 + 1ull);
    if (!(r_c4 == 7ull)) { r_a7 = r_c4; goto l_join_5u; }
l_arm_na:;
    stp(a_1, r_fx);
    st64(r_rq, r_xe);
    st64(r_08, r_0s);
    struct s_i8_i8 r_zo = capnp_show_show_text_Text_push_number(a_1, r_bi);
    r_o6 = r_zo;
    goto l_capnp_rc;
l_arm_n5:;
    struct s_i8_i8 t_fj = (struct s_i8_i8){ 1u, 0u };
    t_fj.f1 = r_e7;
    r_o6 = t_fj;
l_capnp_rc:;
    u8 r_kp = r_o6.f0;
    st8(r_q6, r_kp);
    r_i8 = away(a_1, 26ull);
    st8(r_i8, r_o6.f1);
    r_bi_1 = (u64)a_3;
    if (!(r_kp == 0u)) goto l_capnp_68;
    r_52_2 = ld64(r_rq);
    if (r_52_2 > 0x3ffffb5ull) { r_e7_1 = 0u; goto l_arm_n5_1; }
    r_08_1 = away(a_1, 16ull);
    u64 r_52_3 = ld64(r_08_1);
    if (!((r_52_3 - r_52_2) < 11ull)) { r_4b = r_52_3; r_jh = r_52_2; goto l_join_12; }
    u8 r_4n = std_alloc_vec_Vec_grow_amortized_9634afabedddd7ee(a_1, 11ull);
    if (!r_4n) { r_e7_1 = 1u; goto l_arm_n5_1; }
    r_4b = ld64(r_08_1);
    r_jh = ld64(r_rq);
l_join_12:;
    r_sb = (r_jh + 11ull);
    r_fx_1 = ldp(a_1);
    r_2b_1 = away(r_fx_1, r_jh);
    if (((u64)(uptr)r_2b_1 - (u64)(uptr)((u8 *)g_static_283)) < 11ull) { r_w5 = 0ull; goto l_join_to; }
    mv11(r_2b_1, ((u8 *)g_static_283));
    goto l_arm_na_1;
l_join_to:;
    st8((r_2b_1 + (i64)(r_w5)), ld8((((u8 *)g_static_283) + (i64)(r_w5))));
    u64 r_c4_1 = (r_w5 + 1ull);
    if (!(r_c4_1 == 11ull)) { r_w5 = r_c4_1; goto l_join_to; }
l_arm_na_1:;
    stp(a_1, r_fx_1);
    st64(r_rq, r_sb);
    st64(r_08_1, r_4b);
    struct s_i8_i8 r_zo_1 = capnp_show_show_text_Text_push_number(a_1, r_bi_1);
    r_su = r_zo_1;
    goto l_capnp_kx;
l_arm_n5_1:;
    struct s_i8_i8 t_fj_1 = (struct s_i8_i8){ 1u, 0u };
    t_fj_1.f1 = r_e7_1;
    r_su = t_fj_1;
l_capnp_kx:;
    st8(r_q6, r_su.f0);
    st8(r_i8, r_su.f1);
l_capnp_68:;
    return;
}

/* capnp_show::show::text::Text::push_hex_number */
static struct s_i8_i8 capnp_show_show_text_Text_push_hex_number(u8 *a_1, u64 a_2)
{
    struct s_i8_i8 r_9w;
    u8 r_47;
    u8 *r_rq;
    u64 r_52;
    u8 *r_08;
    u64 r_rm;
    u64 r_7j;
    u8 r_fu;
    u8 r_vh;
    if (!(a_2 > 15ull)) goto l_join_av;
    r_9w = capnp_show_show_text_Text_push_hex_number(a_1, (u64)(a_2 >> 4ull));
    if (r_9w.f0 == 0u) goto l_join_av;
    r_fu = r_9w.f1;
    r_vh = 1u;
    goto l_return_4x;
l_join_av:;
    r_47 = ld8((((u8 *)g_static_197) + (i64)((a_2 & 15ull))));
    r_rq = away(a_1, 8ull);
    r_52 = ld64(r_rq);
    if (r_52 > 0x3ffffbfull) { r_fu = 0u; r_vh = 1u; goto l_return_4x; }
    r_08 = away(a_1, 16ull);
    u64 r_52_1 = ld64(r_08);
    if (!(r_52_1 == r_52)) { r_rm = r_52_1; r_7j = r_52; goto l_join_r2; }
    u8 r_av = std_alloc_vec_Vec_grow_amortized_9634afabedddd7ee(a_1, 1ull);
    if (!r_av) { r_fu = 1u; r_vh = 1u; goto l_return_4x; }
    r_rm = ld64(r_08);
    r_7j = ld64(r_rq);
l_join_r2:;
    u8 *r_fx = ldp(a_1);
    st8(away(r_fx, r_7j), r_47);
    stp(a_1, r_fx);
    st64(r_rq, (r_7j + 1ull));
    st64(r_08, r_rm);
    r_fu = 0u;
    r_vh = 0u;
l_return_4x:;
    struct s_i8_i8 r_3j = (struct s_i8_i8){ 0 };
    r_3j.f0 = r_vh;
    struct s_i8_i8 r_9n = r_3j;
    r_9n.f1 = r_fu;
    return r_9n;
}

/* capnp_show::show::lines::show_pointers::<#5ccc1be374b2e488> */
static void capnp_show_show_lines_show_pointers_5ccc1be374b2e488(u8 *a_1, u32 a_2, u8 a_3, u32 a_4, u8 *a_5)
{
    A(8) u8 slot_1[64];
    A(8) u8 slot_2[16];
    u64 r_eg;
    u64 r_qw;
    u8 *r_rv;
    u64 r_qw_1;
    u32 r_5k;
    u32 r_5k_1;
    u8 spec_u5;
    u32 r_va;
    u32 r_ra;
    u64 r_gw;
    u8 *r_q6;
    u8 *r_xm;
    u8 *r_t9;
    u8 *r_su;
    u64 r_u3;
    u8 *r_i8;
    u8 *r_x5;
    u8 *r_lk;
    u8 *r_89;
    u8 *r_a8;
    u8 *r_c4;
    u8 *r_bk;
    u8 *r_6c;
    u64 wide_24;
    u8 *t_6c;
    u64 indvars_17;
    u32 r_sr;
    u64 r_24;
    u64 r_au;
    u8 sink_ku;
    u64 r_52_1;
    r_eg = (u64)ld8(a_1);
    mv16(slot_2, away(a_1, 8ull));
    r_qw = ld64(away(a_1, 24ull));
    r_rv = ldp(away(a_1, 32ull));
    r_qw_1 = ld64(away(a_1, 40ull));
    r_5k = ld32(away(a_1, 48ull));
    r_5k_1 = ld32(away(a_1, 56ull));
    if (a_4 == 0u) goto l_then_lw;
    goto l_join_m1;
l_common_68:;
    return;
l_then_lw:;
    capnp_show_show_lines_Lines_write_depth_cut(a_5, a_2);
    goto l_common_68;
l_join_m1:;
    spec_u5 = (u8)((u8)a_3 & (u8)(a_2 > 64u));
    r_va = (spec_u5 ? 64u : a_2);
    if (r_va == 0u) goto l_after_qk;
    r_ra = (a_4 + 0xffffffffu);
    r_gw = (u64)(r_qw_1 >> 3ull);
    r_q6 = away(a_5, 25ull);
    r_xm = away(a_5, 32ull);
    r_t9 = away(a_5, 48ull);
    r_su = away(a_5, 40ull);
    r_u3 = (u64)a_3;
    r_i8 = away(a_5, 26ull);
    r_x5 = (slot_1 + 8);
    r_lk = (slot_1 + 24);
    r_89 = (slot_1 + 32);
    r_a8 = (slot_1 + 40);
    r_c4 = (slot_1 + 48);
    r_bk = (slot_1 + 52);
    r_6c = (slot_1 + 56);
    wide_24 = (u64)r_va;
    t_6c = (slot_1 + 56);
    indvars_17 = 0ull;
l_join_n9:;
    r_sr = (r_5k + (u32)indvars_17);
    st64(t_6c, 0ull);
    r_24 = (u64)r_sr;
    if (!(r_gw > r_24)) goto l_capnp_nv;
    if (ld64(away(r_rv, (u64)(r_24 << 3ull))) == 0ull) goto l_capnp_nv;
    if (!(ld8(r_q6) == 0u)) goto l_capnp_ns;
    u64 r_52 = ld64(r_su);
    if (!(ld64(r_t9) == r_52)) { r_au = r_52; goto l_join_qq; }
    u8 r_5t = std_alloc_vec_Vec_grow_amortized_e6560bd0eee8a70a(r_xm);
    if (!r_5t) { sink_ku = 1u; goto l_capnp_0x; }
    r_au = ld64(r_su);
l_join_qq:;
    st64((ldp(r_xm) + (i64)((u64)(r_au << 3ull))), ((u64)(indvars_17 << 32ull) | r_u3));
    st64(r_su, (r_au + 1ull));
    sink_ku = 0u;
l_capnp_0x:;
    st8(r_q6, sink_ku);
    st8(r_i8, sink_ku);
l_capnp_ns:;
    st64(slot_1, r_eg);
    mv16(r_x5, slot_2);
    st64(r_lk, r_qw);
    stp(r_89, r_rv);
    st64(r_a8, r_qw_1);
    st32(r_c4, r_sr);
    st32(r_bk, 0u);
    st32(r_6c, r_5k_1);
    capnp_show_show_lines_show_pointer_5ccc1be374b2e488(slot_1, r_ra, a_5);
    r_52_1 = ld64(r_su);
    if (r_52_1 == 0ull) goto l_capnp_nv;
    st64(r_su, (r_52_1 + 0xffffffffffffffffull));
l_capnp_nv:;
    u64 indvars_r7 = (indvars_17 + 1ull);
    if (!(indvars_r7 == wide_24)) { indvars_17 = indvars_r7; goto l_join_n9; }
l_after_qk:;
    capnp_show_show_lines_Lines_write_list_cut(a_5, spec_u5);
    goto l_common_68;
}

/* capnp_show::show::lines::Lines::write_depth_cut */
static void capnp_show_show_lines_Lines_write_depth_cut(u8 *a_1, u32 a_2)
{
    u8 *r_q6;
    u8 *r_rq;
    u64 r_52;
    u8 *r_08;
    u64 r_20;
    u64 r_j8;
    u8 r_fo;
    u8 r_go;
    u64 r_24;
    u8 *r_rq_1;
    u64 r_52_2;
    u8 *r_08_1;
    u64 r_3h;
    u64 r_v4;
    u64 r_dr;
    u8 *r_fx_1;
    u8 *r_2b;
    u64 r_25;
    u8 r_e7;
    struct s_i8_i8 r_o6;
    u8 r_dw;
    u8 *r_rq_2;
    u64 r_52_4;
    u8 *r_08_2;
    u64 r_y1;
    u64 r_pz;
    u64 r_5b;
    u8 *r_fx_2;
    u8 *r_2b_1;
    u64 r_51;
    u8 r_fo_1;
    u8 r_go_1;
    u8 r_uy;
    u8 *r_rq_3;
    u64 r_52_6;
    u8 *r_08_3;
    u64 r_w4;
    u64 r_61;
    u8 r_1e;
    u8 r_6i;
    if (a_2 == 0u) goto l_join_68;
    capnp_show_show_lines_Lines_write_path(a_1);
    r_q6 = away(a_1, 25ull);
    if (!(ld8(r_q6) == 0u)) goto l_capnp_8c;
    r_rq = away(a_1, 8ull);
    r_52 = ld64(r_rq);
    if (r_52 > 0x3ffffbfull) { r_fo = 0u; r_go = 1u; goto l_capnp_1e; }
    r_08 = away(a_1, 16ull);
    u64 r_52_1 = ld64(r_08);
    if (!(r_52_1 == r_52)) { r_20 = r_52_1; r_j8 = r_52; goto l_join_jz; }
    u8 r_av = std_alloc_vec_Vec_grow_amortized_9634afabedddd7ee(a_1, 1ull);
    if (!r_av) { r_fo = 1u; r_go = 1u; goto l_capnp_1e; }
    r_20 = ld64(r_08);
    r_j8 = ld64(r_rq);
l_join_jz:;
    u8 *r_fx = ldp(a_1);
    st8(away(r_fx, r_j8), 32u);
    stp(a_1, r_fx);
    st64(r_rq, (r_j8 + 1ull));
    st64(r_08, r_20);
    r_fo = 0u;
    r_go = 0u;
l_capnp_1e:;
    st8(r_q6, r_go);
    st8(away(a_1, 26ull), r_fo);
l_capnp_8c:;
    capnp_show_show_lines_Lines_begin(a_1, 4u);
    r_24 = (u64)ld32(away(a_1, 84ull));
    u8 r_47 = ld8(r_q6);
    if (!(r_47 == 0u)) { r_dw = r_47; goto l_capnp_kk; }
    r_rq_1 = away(a_1, 8ull);
    r_52_2 = ld64(r_rq_1);
    if (r_52_2 > 0x3ffffb3ull) { r_e7 = 0u; goto l_arm_n5; }
    r_08_1 = away(a_1, 16ull);
    u64 r_52_3 = ld64(r_08_1);
    if (!((r_52_3 - r_52_2) < 13ull)) { r_3h = r_52_3; r_v4 = r_52_2; goto l_join_jf; }
    u8 r_mg = std_alloc_vec_Vec_grow_amortized_9634afabedddd7ee(a_1, 13ull);
    if (!r_mg) { r_e7 = 1u; goto l_arm_n5; }
    r_3h = ld64(r_08_1);
    r_v4 = ld64(r_rq_1);
l_join_jf:;
    r_dr = (r_v4 + 13ull);
    r_fx_1 = ldp(a_1);
    r_2b = away(r_fx_1, r_v4);
    if (((u64)(uptr)r_2b - (u64)(uptr)((u8 *)g_static_288)) < 13ull) { r_25 = 0ull; goto l_join_1x; }
    mv13(r_2b, ((u8 *)g_static_288));
    goto l_arm_na;
l_join_1x:;
    st8((r_2b + (i64)(r_25)), ld8((((u8 *)g_static_288) + (i64)(r_25))));
    u64 r_c4 = (r_25 + 1ull);
    if (!(r_c4 == 13ull)) { r_25 = r_c4; goto l_join_1x; }
l_arm_na:;
    stp(a_1, r_fx_1);
    st64(r_rq_1, r_dr);
    st64(r_08_1, r_3h);
    struct s_i8_i8 r_zo = capnp_show_show_text_Text_push_number(a_1, r_24);
    r_o6 = r_zo;
    goto l_capnp_rc;
l_arm_n5:;
    struct s_i8_i8 t_fj = (struct s_i8_i8){ 1u, 0u };
    t_fj.f1 = r_e7;
    r_o6 = t_fj;
l_capnp_rc:;
    u8 r_kp = r_o6.f0;
    st8(r_q6, r_kp);
    st8(away(a_1, 26ull), r_o6.f1);
    r_dw = r_kp;
l_capnp_kk:;
    if (!(u8)(ld8(away(a_1, 81ull)) & 1)) { r_uy = r_dw; goto l_capnp_f2; }
    if (!(r_dw == 0u)) goto l_join_68;
    r_rq_2 = away(a_1, 8ull);
    r_52_4 = ld64(r_rq_2);
    if (r_52_4 > 0x3ffffbcull) { r_fo_1 = 0u; r_go_1 = 1u; goto l_capnp_1e_1; }
    r_08_2 = away(a_1, 16ull);
    u64 r_52_5 = ld64(r_08_2);
    if (!((r_52_5 - r_52_4) < 4ull)) { r_y1 = r_52_5; r_pz = r_52_4; goto l_join_tt; }
    u8 r_t3 = std_alloc_vec_Vec_grow_amortized_9634afabedddd7ee(a_1, 4ull);
    if (!r_t3) { r_fo_1 = 1u; r_go_1 = 1u; goto l_capnp_1e_1; }
    r_y1 = ld64(r_08_2);
    r_pz = ld64(r_rq_2);
l_join_tt:;
    r_5b = (r_pz + 4ull);
    r_fx_2 = ldp(a_1);
    r_2b_1 = away(r_fx_2, r_pz);
    if (((u64)(uptr)r_2b_1 - (u64)(uptr)((u8 *)g_static_266)) < 4ull) { r_51 = 0ull; goto l_join_fz; }
    st32(r_2b_1, 0x6d305b1bu);
    goto l_core_ga;
l_join_fz:;
    st8((r_2b_1 + (i64)(r_51)), ld8((((u8 *)g_static_266) + (i64)(r_51))));
    u64 r_c4_1 = (r_51 + 1ull);
    if (!(r_c4_1 == 4ull)) { r_51 = r_c4_1; goto l_join_fz; }
l_core_ga:;
    stp(a_1, r_fx_2);
    st64(r_rq_2, r_5b);
    st64(r_08_2, r_y1);
    r_fo_1 = 0u;
    r_go_1 = 0u;
l_capnp_1e_1:;
    st8(r_q6, r_go_1);
    st8(away(a_1, 26ull), r_fo_1);
    r_uy = r_go_1;
l_capnp_f2:;
    if (!(r_uy == 0u)) goto l_join_68;
    r_rq_3 = away(a_1, 8ull);
    r_52_6 = ld64(r_rq_3);
    if (r_52_6 > 0x3ffffbfull) { r_1e = 0u; r_6i = 1u; goto l_capnp_vj; }
    r_08_3 = away(a_1, 16ull);
    u64 r_52_7 = ld64(r_08_3);
    if (!(r_52_7 == r_52_6)) { r_w4 = r_52_7; r_61 = r_52_6; goto l_join_e4; }
    u8 r_av_1 = std_alloc_vec_Vec_grow_amortized_9634afabedddd7ee(a_1, 1ull);
    if (!r_av_1) { r_1e = 1u; r_6i = 1u; goto l_capnp_vj; }
    r_w4 = ld64(r_08_3);
    r_61 = ld64(r_rq_3);
l_join_e4:;
    u8 *r_fx_3 = ldp(a_1);
    st8(away(r_fx_3, r_61), 10u);
    stp(a_1, r_fx_3);
    st64(r_rq_3, (r_61 + 1ull));
    st64(r_08_3, r_w4);
    r_1e = 0u;
    r_6i = 0u;
l_capnp_vj:;
    st8(r_q6, r_6i);
    st8(away(a_1, 26ull), r_1e);
l_join_68:;
    return;
}

/* capnp_show::show::lines::Lines::write_list_cut */
static void capnp_show_show_lines_Lines_write_list_cut(u8 *a_1, u8 a_2)
{
    u8 *r_q6;
    u8 *r_rq;
    u64 r_52;
    u8 *r_08;
    u64 r_20;
    u64 r_j8;
    u8 r_fo;
    u8 r_go;
    u8 *r_rq_1;
    u64 r_52_2;
    u8 *r_08_1;
    u64 r_w4;
    u64 r_61;
    u8 r_1e;
    u8 r_6i;
    if (!a_2) goto l_join_68;
    capnp_show_show_lines_Lines_write_path(a_1);
    r_q6 = away(a_1, 25ull);
    if (!(ld8(r_q6) == 0u)) goto l_capnp_56;
    r_rq = away(a_1, 8ull);
    r_52 = ld64(r_rq);
    if (r_52 > 0x3ffffbfull) { r_fo = 0u; r_go = 1u; goto l_capnp_1e; }
    r_08 = away(a_1, 16ull);
    u64 r_52_1 = ld64(r_08);
    if (!(r_52_1 == r_52)) { r_20 = r_52_1; r_j8 = r_52; goto l_join_jz; }
    u8 r_av = std_alloc_vec_Vec_grow_amortized_9634afabedddd7ee(a_1, 1ull);
    if (!r_av) { r_fo = 1u; r_go = 1u; goto l_capnp_1e; }
    r_20 = ld64(r_08);
    r_j8 = ld64(r_rq);
l_join_jz:;
    u8 *r_fx = ldp(a_1);
    st8(away(r_fx, r_j8), 32u);
    stp(a_1, r_fx);
    st64(r_rq, (r_j8 + 1ull));
    st64(r_08, r_20);
    r_fo = 0u;
    r_go = 0u;
l_capnp_1e:;
    st8(r_q6, r_go);
    st8(away(a_1, 26ull), r_fo);
l_capnp_56:;
    capnp_show_show_lines_Lines_write_part(a_1, ((u8 *)g_static_289), 21ull);
    if (!(ld8(r_q6) == 0u)) goto l_join_68;
    r_rq_1 = away(a_1, 8ull);
    r_52_2 = ld64(r_rq_1);
    if (r_52_2 > 0x3ffffbfull) { r_1e = 0u; r_6i = 1u; goto l_capnp_vj; }
    r_08_1 = away(a_1, 16ull);
    u64 r_52_3 = ld64(r_08_1);
    if (!(r_52_3 == r_52_2)) { r_w4 = r_52_3; r_61 = r_52_2; goto l_join_e4; }
    u8 r_av_1 = std_alloc_vec_Vec_grow_amortized_9634afabedddd7ee(a_1, 1ull);
    if (!r_av_1) { r_1e = 1u; r_6i = 1u; goto l_capnp_vj; }
    r_w4 = ld64(r_08_1);
    r_61 = ld64(r_rq_1);
l_join_e4:;
    u8 *r_fx_1 = ldp(a_1);
    st8(away(r_fx_1, r_61), 10u);
    stp(a_1, r_fx_1);
    st64(r_rq_1, (r_61 + 1ull));
    st64(r_08_1, r_w4);
    r_1e = 0u;
    r_6i = 0u;
l_capnp_vj:;
    st8(r_q6, r_6i);
    st8(away(a_1, 26ull), r_1e);
l_join_68:;
    return;
}

/* capnp_show::show::lines::Lines::write_refusal */
static void capnp_show_show_lines_Lines_write_refusal(u8 *a_1, u8 *a_2, u64 a_3)
{
    u8 *r_q6;
    u8 *r_rq;
    u64 r_52;
    u8 *r_08;
    u64 r_20;
    u64 r_j8;
    u8 r_fo;
    u8 r_go;
    u8 *r_rq_1;
    u64 r_52_2;
    u8 *r_08_1;
    u64 r_di;
    u64 r_ju;
    u64 r_5q;
    u8 *r_fx_1;
    u8 *r_2b;
    u64 r_oz;
    u8 *r_i8;
    u8 *r_4a;
    u64 r_uv;
    u64 r_0z;
    u64 r_zx;
    u8 *r_2b_1;
    u64 r_31;
    u8 r_i7;
    u8 r_w0;
    u8 r_dw;
    u8 *r_rq_2;
    u64 r_52_4;
    u8 *r_08_2;
    u64 r_y1;
    u64 r_pz;
    u64 r_5b;
    u8 *r_fx_2;
    u8 *r_2b_2;
    u64 r_51;
    u8 r_fo_1;
    u8 r_go_1;
    u8 r_lk;
    u8 *r_rq_3;
    u64 r_52_6;
    u8 *r_08_3;
    u64 r_w4;
    u64 r_61;
    u8 sink_hf;
    u8 r_sl;
    st8(away(a_1, 24ull), 0u);
    r_q6 = away(a_1, 25ull);
    if (!(ld8(r_q6) == 0u)) goto l_capnp_vj;
    r_rq = away(a_1, 8ull);
    r_52 = ld64(r_rq);
    if (r_52 > 0x3ffffbfull) { r_fo = 0u; r_go = 1u; goto l_capnp_1e; }
    r_08 = away(a_1, 16ull);
    u64 r_52_1 = ld64(r_08);
    if (!(r_52_1 == r_52)) { r_20 = r_52_1; r_j8 = r_52; goto l_join_jz; }
    u8 r_av = std_alloc_vec_Vec_grow_amortized_9634afabedddd7ee(a_1, 1ull);
    if (!r_av) { r_fo = 1u; r_go = 1u; goto l_capnp_1e; }
    r_20 = ld64(r_08);
    r_j8 = ld64(r_rq);
l_join_jz:;
    u8 *r_fx = ldp(a_1);
    st8(away(r_fx, r_j8), 32u);
    stp(a_1, r_fx);
    st64(r_rq, (r_j8 + 1ull));
    st64(r_08, r_20);
    r_fo = 0u;
    r_go = 0u;
l_capnp_1e:;
    st8(r_q6, r_go);
    st8(away(a_1, 26ull), r_fo);
l_capnp_vj:;
    capnp_show_show_lines_Lines_begin(a_1, 3u);
    u8 r_47 = ld8(r_q6);
    if (!(r_47 == 0u)) { r_dw = r_47; goto l_capnp_kk; }
    r_rq_1 = away(a_1, 8ull);
    r_52_2 = ld64(r_rq_1);
    if (r_52_2 > 0x3ffffb8ull) { sink_hf = 1u; r_sl = 0u; goto l_capnp_cp; }
    r_08_1 = away(a_1, 16ull);
    u64 r_52_3 = ld64(r_08_1);
    if (!((r_52_3 - r_52_2) < 8ull)) { r_di = r_52_3; r_ju = r_52_2; goto l_join_sq; }
    u8 r_q2 = std_alloc_vec_Vec_grow_amortized_9634afabedddd7ee(a_1, 8ull);
    if (!r_q2) { sink_hf = 1u; r_sl = 1u; goto l_capnp_cp; }
    r_di = ld64(r_08_1);
    r_ju = ld64(r_rq_1);
l_join_sq:;
    r_5q = (r_ju + 8ull);
    r_fx_1 = ldp(a_1);
    r_2b = away(r_fx_1, r_ju);
    if (((u64)(uptr)r_2b - (u64)(uptr)((u8 *)g_static_290)) < 8ull) { r_oz = 0ull; goto l_join_zw; }
    st64(r_2b, 0x2064657375666572ull);
    goto l_then_25;
l_join_zw:;
    st8((r_2b + (i64)(r_oz)), ld8((((u8 *)g_static_290) + (i64)(r_oz))));
    u64 r_c4 = (r_oz + 1ull);
    if (!(r_c4 == 8ull)) { r_oz = r_c4; goto l_join_zw; }
l_then_25:;
    stp(a_1, r_fx_1);
    st64(r_rq_1, r_5q);
    st64(r_08_1, r_di);
    st8(r_q6, 0u);
    r_i8 = away(a_1, 26ull);
    st8(r_i8, 0u);
    if ((r_5q > 0x3ffffc0ull) ? 1u : ((0x3ffffb8ull - r_ju) < a_3)) { r_i7 = 0u; r_w0 = 1u; goto l_capnp_xz; }
    if (!(a_3 > (r_di - r_5q))) { r_4a = r_fx_1; r_uv = r_di; r_0z = r_5q; goto l_join_xu; }
    u8 r_7h = std_alloc_vec_Vec_grow_amortized_9634afabedddd7ee(a_1, a_3);
    if (!r_7h) { r_i7 = 1u; r_w0 = 1u; goto l_capnp_xz; }
    r_4a = ldp(a_1);
    r_uv = ld64(r_08_1);
    r_0z = ld64(r_rq_1);
l_join_xu:;
    r_zx = (r_0z + a_3);
    memset(r_rq_1, 0u, 16);
    r_2b_1 = away(r_4a, r_0z);
    if (((u64)(uptr)r_2b_1 - (u64)(uptr)a_2) < a_3) { r_31 = 0ull; goto l_join_sz; }
    memmove_or_none(r_2b_1, a_2, a_3);
    goto l_core_ga;
l_join_sz:;
    st8((r_2b_1 + (i64)(r_31)), ld8((a_2 + (i64)(r_31))));
    u64 r_c4_1 = (r_31 + 1ull);
    if (!(r_c4_1 == a_3)) { r_31 = r_c4_1; goto l_join_sz; }
l_core_ga:;
    stp(a_1, r_4a);
    st64(r_rq_1, r_zx);
    st64(r_08_1, r_uv);
    r_i7 = 0u;
    r_w0 = 0u;
l_capnp_xz:;
    st8(r_q6, r_w0);
    st8(r_i8, r_i7);
    r_dw = r_w0;
l_capnp_kk:;
    if (!(u8)(ld8(away(a_1, 81ull)) & 1)) { r_lk = r_dw; goto l_capnp_pz; }
    if (!(r_dw == 0u)) goto l_capnp_68;
    r_rq_2 = away(a_1, 8ull);
    r_52_4 = ld64(r_rq_2);
    if (r_52_4 > 0x3ffffbcull) { r_fo_1 = 0u; r_go_1 = 1u; goto l_capnp_1e_1; }
    r_08_2 = away(a_1, 16ull);
    u64 r_52_5 = ld64(r_08_2);
    if (!((r_52_5 - r_52_4) < 4ull)) { r_y1 = r_52_5; r_pz = r_52_4; goto l_join_tt; }
    u8 r_t3 = std_alloc_vec_Vec_grow_amortized_9634afabedddd7ee(a_1, 4ull);
    if (!r_t3) { r_fo_1 = 1u; r_go_1 = 1u; goto l_capnp_1e_1; }
    r_y1 = ld64(r_08_2);
    r_pz = ld64(r_rq_2);
l_join_tt:;
    r_5b = (r_pz + 4ull);
    r_fx_2 = ldp(a_1);
    r_2b_2 = away(r_fx_2, r_pz);
    if (((u64)(uptr)r_2b_2 - (u64)(uptr)((u8 *)g_static_266)) < 4ull) { r_51 = 0ull; goto l_join_fz; }
    st32(r_2b_2, 0x6d305b1bu);
    goto l_core_ga_1;
l_join_fz:;
    st8((r_2b_2 + (i64)(r_51)), ld8((((u8 *)g_static_266) + (i64)(r_51))));
    u64 r_c4_2 = (r_51 + 1ull);
    if (!(r_c4_2 == 4ull)) { r_51 = r_c4_2; goto l_join_fz; }
l_core_ga_1:;
    stp(a_1, r_fx_2);
    st64(r_rq_2, r_5b);
    st64(r_08_2, r_y1);
    r_fo_1 = 0u;
    r_go_1 = 0u;
l_capnp_1e_1:;
    st8(r_q6, r_go_1);
    st8(away(a_1, 26ull), r_fo_1);
    r_lk = r_go_1;
l_capnp_pz:;
    if (!(r_lk == 0u)) goto l_capnp_68;
    r_rq_3 = away(a_1, 8ull);
    r_52_6 = ld64(r_rq_3);
    if (r_52_6 > 0x3ffffbfull) { sink_hf = 1u; r_sl = 0u; goto l_capnp_cp; }
    r_08_3 = away(a_1, 16ull);
    u64 r_52_7 = ld64(r_08_3);
    if (!(r_52_7 == r_52_6)) { r_w4 = r_52_7; r_61 = r_52_6; goto l_join_e4; }
    u8 r_av_1 = std_alloc_vec_Vec_grow_amortized_9634afabedddd7ee(a_1, 1ull);
    if (!r_av_1) { sink_hf = 1u; r_sl = 1u; goto l_capnp_cp; }
    r_w4 = ld64(r_08_3);
    r_61 = ld64(r_rq_3);
l_join_e4:;
    u8 *r_fx_3 = ldp(a_1);
    st8(away(r_fx_3, r_61), 10u);
    stp(a_1, r_fx_3);
    st64(r_rq_3, (r_61 + 1ull));
    st64(r_08_3, r_w4);
    sink_hf = 0u;
    r_sl = 0u;
l_capnp_cp:;
    st8(r_q6, sink_hf);
    st8(away(a_1, 26ull), r_sl);
l_capnp_68:;
    return;
}

/* capnp_show::show::text::Text::write::<#1c2599c210499688> */
struct s_i8_i8 capnp_show_show_text_Text_write_1c2599c210499688(u8 *a_1, u8 *a_2)
{
    A(8) u8 slot_1[96];
    u64 r_52;
    u8 *r_h6;
    u8 *r_r2;
    u8 *r_xz;
    u8 *r_su;
    u8 *r_xm;
    u8 *r_x5;
    u8 *r_qs;
    u64 r_tv;
    u64 r_52_1;
    u64 r_52_2;
    u64 r_5q;
    u8 *r_lz;
    u8 *r_2b;
    u64 r_il;
    u64 r_3a;
    u8 not_3x;
    r_52 = ld64(away(a_1, 8ull));
    if (r_52 == 0ull) { not_3x = 0u; goto l_capnp_wt; }
    r_h6 = away(a_2, 64ull);
    r_r2 = away(a_2, 56ull);
    r_xz = away(a_2, 24ull);
    r_su = away(a_2, 40ull);
    r_xm = away(a_2, 32ull);
    r_x5 = (slot_1 + 8);
    r_qs = ldp(a_1);
    r_tv = r_52;
l_join_r6:;
    if ((u8)(ld8(r_h6) & 1)) goto l_join_vw;
    if (!(ld64(r_r2) < r_tv)) goto l_after_c8;
l_join_vw:;
    st8(r_h6, 1u);
    not_3x = 1u;
    goto l_capnp_wt;
l_after_c8:;
    memset(slot_1, 0u, 96);
    r_52_1 = ld64(r_su);
    r_52_2 = ld64(r_xm);
    if (!(r_tv < (r_52_1 - r_52_2))) goto l_std_ad;
    r_5q = (r_52_2 + r_tv);
    r_lz = ldp(r_xz);
    memset(r_xm, 0u, 16);
    r_2b = away(r_lz, r_52_2);
    if (((u64)(uptr)r_2b - (u64)(uptr)r_qs) < r_tv) { r_il = 0ull; goto l_join_fh; }
    memmove_or_none(r_2b, r_qs, r_tv);
    goto l_arm_5b;
l_join_fh:;
    st8((r_2b + (i64)(r_il)), ld8((r_qs + (i64)(r_il))));
    u64 r_36 = (r_il + 1ull);
    if (!(r_36 == r_tv)) { r_il = r_36; goto l_join_fh; }
l_arm_5b:;
    stp(r_xz, r_lz);
    st64(r_xm, r_5q);
    st64(r_su, r_52_1);
    r_3a = r_tv;
    goto l_arm_qd;
l_std_ad:;
    std_io_buffered_BufWriter_write_cold_4fc199ee41d89934(slot_1, a_2, r_qs, r_tv);
    u64 r_38 = ld64(r_x5);
    if ((ld8(slot_1) == 0u) ? (r_38 != 0ull) : 0u) { r_3a = r_38; goto l_arm_qd; }
    st8(away(a_2, 48ull), 1u);
    not_3x = 1u;
    goto l_capnp_wt;
l_arm_qd:;
    st64(r_r2, (ld64(r_r2) - r_3a));
    u64 r_t9 = (r_tv - r_3a);
    if (r_t9 == 0ull) { not_3x = 0u; goto l_capnp_wt; }
    u8 *r_1 = away(r_qs, r_3a);
    u64 r_2 = r_t9;
    r_qs = r_1;
    r_tv = r_2;
    goto l_join_r6;
l_capnp_wt:;
    struct s_i8_i8 r_y8 = (struct s_i8_i8){ 0 };
    r_y8.f0 = not_3x;
    struct s_i8_i8 r_hj = r_y8;
    r_hj.f1 = not_3x;
    return r_hj;
}

/* capnp_show::show::compare::find_difference::<#46c7a4392912af85> */
void capnp_show_show_compare_find_difference_46c7a4392912af85(u8 *a_1, u8 *a_2, u8 *a_3, u8 *a_4)
{
    A(8) u8 slot_1[24];
    A(8) u8 slot_2[128];
    A(8) u8 slot_3[128];
    u8 *r_xw;
    u64 r_38;
    u64 r_38_1;
    u8 r_r5;
    u8 *r_xw_1;
    u64 r_38_2;
    u8 r_dd;
    u8 *r_xw_2;
    u64 r_38_3;
    u64 r_38_4;
    u8 r_r5_1;
    u8 *r_xw_3;
    u64 r_38_5;
    u64 r_qp_1;
    u8 r_qp;
    u64 r_n0;
    u8 r_g1;
    u64 a_f1;
    u64 r_lm;
    u64 r_50;
    u64 r_ia;
    u64 r_7h;
    u64 r_aa;
    st64((slot_1 + 16), 0ull);
    st64(slot_1, (u64)ld8(a_2));
    st64((slot_1 + 8), ld64(away(a_2, 8ull)));
    st32((slot_1 + 16), ld32(away(a_2, 16ull)));
    memset(slot_2, 0u, 128);
    memset(slot_3, 0u, 128);
    capnp_show_show_compare_make_line_9d3526b9b0726c59(slot_2, slot_1, a_3);
    if (!(ld8(slot_2) == 0u)) goto l_arm_f3;
    r_xw = ldp((slot_2 + 8));
    r_38 = ld64((slot_2 + 16));
    r_38_1 = ld64((slot_2 + 24));
    r_r5 = ld8((slot_2 + 72));
    r_xw_1 = ldp((slot_2 + 96));
    r_38_2 = ld64((slot_2 + 112));
    capnp_show_show_compare_make_line_9d3526b9b0726c59(slot_3, slot_1, a_4);
    r_dd = ld8((slot_3 + 1));
    if (ld8(slot_3) == 0u) goto l_arm_hn;
    goto l_arm_p4;
l_common_68:;
    return;
l_arm_f3:;
    u8 r_dd_1 = ld8((slot_2 + 1));
    st8(a_1, 1u);
    st8(away(a_1, 1ull), r_dd_1);
    memset(away(a_1, 8ull), 0u, 24);
    goto l_common_68;
l_arm_hn:;
    r_xw_2 = ldp((slot_3 + 8));
    r_38_3 = ld64((slot_3 + 16));
    r_38_4 = ld64((slot_3 + 24));
    r_r5_1 = ld8((slot_3 + 72));
    r_xw_3 = ldp((slot_3 + 96));
    r_38_5 = ld64((slot_3 + 112));
    if (!(r_38 == r_38_3)) goto l_join_nf;
    if (!(r_38 < 4ull)) { r_qp = 0u; r_n0 = 0ull; goto l_join_8r; }
    if (r_38 == 0ull) { r_ia = 0ull; r_7h = 0ull; r_aa = 0ull; goto l_capnp_p4; }
    r_qp_1 = 0ull;
l_join_8r_1:;
    if (!(ld8(away(r_xw, r_qp_1)) == ld8(away(r_xw_2, r_qp_1)))) goto l_core_e5;
    u64 r_c4 = (r_qp_1 + 1ull);
    if (r_c4 == r_38) { r_ia = 0ull; r_7h = 0ull; r_aa = 0ull; goto l_capnp_p4; }
    r_qp_1 = r_c4;
    goto l_join_8r_1;
l_core_e5:;
    if (r_qp_1 < r_38) goto l_join_nf;
    r_ia = 0ull;
    r_7h = 0ull;
    r_aa = 0ull;
    goto l_capnp_p4;
l_join_8r:;
    r_g1 = (u8)((u8)r_qp | (u8)(ld8(away(r_xw, r_n0)) != ld8(away(r_xw_2, r_n0))));
    u64 r_c4_1 = (r_n0 + 1ull);
    if (!(r_c4_1 == 4ull)) { r_qp = r_g1; r_n0 = r_c4_1; goto l_join_8r; }
    if (r_g1) goto l_join_nf;
    u8 r_7n = core_cmp_slices_groups_equal_i8_31_core_cmp_numbers_U8PartialEq(r_xw, r_38, r_xw_2);
    if (r_7n) { r_ia = 0ull; r_7h = 0ull; r_aa = 0ull; goto l_capnp_p4; }
l_join_nf:;
    a_f1 = umin64(r_38_3, r_38);
    if (a_f1 == 0ull) { r_50 = 0ull; goto l_capnp_cd; }
    r_lm = 0ull;
l_then_0f:;
    if (!(ld8((r_xw + (i64)(r_lm))) == ld8((r_xw_2 + (i64)(r_lm))))) { r_50 = r_lm; goto l_capnp_cd; }
    u64 r_36 = (r_lm + 1ull);
    if (r_36 == a_f1) { r_50 = a_f1; goto l_capnp_cd; }
    r_lm = r_36;
    goto l_then_0f;
l_capnp_cd:;
    if (!(r_50 < r_38)) goto l_join_b7;
    switch (ld8(away(r_xw, r_50))) {
    case 123u: goto l_then_cd;
    case 110u: goto l_then_cd;
    default: goto l_join_b7;
    }
l_then_cd:;
    if (!(r_50 < r_38_3)) goto l_join_b7;
    switch (ld8(away(r_xw_2, r_50))) {
    case 123u: { r_ia = 1ull; r_7h = r_50; r_aa = r_50; goto l_capnp_p4; }
    case 110u: { r_ia = 1ull; r_7h = r_50; r_aa = r_50; goto l_capnp_p4; }
    default: goto l_join_b7;
    }
l_join_b7:;
    r_ia = 1ull;
    r_7h = r_50;
    r_aa = usub_sat64(r_50, 1ull);
l_capnp_p4:;
    if (r_38_4 == 0ull) goto l_std_bd;
    rattle_dealloc(r_xw_2);
l_std_bd:;
    if ((r_r5_1 != 1u) ? 1u : (r_38_5 == 0ull)) goto l_join_p4;
    goto l_then_wd;
l_arm_p4:;
    if (r_38_1 == 0ull) goto l_std_bd_1;
    rattle_dealloc(r_xw);
l_std_bd_1:;
    if ((r_r5 != 1u) ? 1u : (r_38_2 == 0ull)) goto l_join_cl;
    rattle_dealloc(r_xw_1);
l_join_cl:;
    st8(a_1, 1u);
    st8(away(a_1, 1ull), r_dd);
    memset(away(a_1, 8ull), 0u, 24);
    goto l_common_68;
l_then_wd:;
    rattle_dealloc(r_xw_3);
l_join_p4:;
    if (r_38_1 == 0ull) goto l_std_bd_2;
    rattle_dealloc(r_xw);
l_std_bd_2:;
    if ((r_r5 != 1u) ? 1u : (r_38_2 == 0ull)) goto l_join_yd;
    rattle_dealloc(r_xw_1);
l_join_yd:;
    st8(a_1, 0u);
    st8(away(a_1, 1ull), 0u);
    st64(away(a_1, 8ull), r_ia);
    st64(away(a_1, 16ull), r_7h);
    st64(away(a_1, 24ull), r_aa);
    goto l_common_68;
}

/* capnp_show::show::compare::make_line::<#9d3526b9b0726c59> */
static void capnp_show_show_compare_make_line_9d3526b9b0726c59(u8 *a_1, u8 *a_2, u8 *a_3)
{
    A(1) u8 slot_1[1];
    A(8) u8 slot_2[120];
    struct s_i8_i8 r_5d;
    u8 r_ts;
    u64 r_qw = ld64(away(a_2, 8ull));
    u32 r_5k = ld32(away(a_2, 16ull));
    u64 r_eg = (u64)ld8(a_2);
    stp(slot_2, slot_1);
    memset((slot_2 + 8), 0u, 16);
    st8((slot_2 + 24), 1u);
    memset((slot_2 + 25), 0u, 7);
    st64((slot_2 + 32), r_eg);
    st64((slot_2 + 40), r_qw);
    memset((slot_2 + 48), 0u, 72);
    r_5d = capnp_show_show_message_write_json_9d3526b9b0726c59(a_3, 0ull, 0ull, ((u8 *)g_static_294), 0ull, smax32(r_5k, 0u), slot_2);
    if (r_5d.f0 == 0u) goto l_arm_yd;
    goto l_arm_cb;
l_common_68:;
    return;
l_arm_yd:;
    st8(a_1, 0u);
    st8(away(a_1, 1ull), 0u);
    memcpy(away(a_1, 8ull), slot_2, 120);
    goto l_common_68;
l_arm_cb:;
    r_ts = (ld64((slot_2 + 16)) == 0ull);
    if (!(r_5d.f1 == 0u)) goto l_arm_yg;
    if (r_ts) goto l_std_fy;
    rattle_dealloc(ldp(slot_2));
l_std_fy:;
    if ((ld8((slot_2 + 64)) != 1u) ? 1u : (ld64((slot_2 + 104)) == 0ull)) goto l_join_ae;
    rattle_dealloc(ldp((slot_2 + 88)));
l_join_ae:;
    st8(a_1, 1u);
    st8(away(a_1, 1ull), 1u);
    memset(away(a_1, 8ull), 0u, 120);
    goto l_common_68;
l_arm_yg:;
    if (r_ts) goto l_std_fy_1;
    rattle_dealloc(ldp(slot_2));
l_std_fy_1:;
    if ((ld8((slot_2 + 64)) != 1u) ? 1u : (ld64((slot_2 + 104)) == 0ull)) goto l_join_tl;
    rattle_dealloc(ldp((slot_2 + 88)));
l_join_tl:;
    st8(a_1, 1u);
    st8(away(a_1, 1ull), 0u);
    memset(away(a_1, 8ull), 0u, 120);
    goto l_common_68;
}

/* capnp_show::show::compare::make_difference_text::<#46c7a4392912af85> */
void capnp_show_show_compare_make_difference_text_46c7a4392912af85(u8 *a_1, u8 *a_2, u64 a_3, u64 a_4, u64 a_5, u8 *a_6, u8 *a_7)
{
    A(4) u8 slot_1[1];
    A(8) u8 slot_2[24];
    A(2) u8 slot_3[30];
    A(8) u8 slot_4[24];
    A(2) u8 slot_5[30];
    A(2) u8 slot_6[30];
    A(8) u8 slot_7[24];
    A(8) u8 slot_8[128];
    A(8) u8 slot_9[48];
    A(8) u8 slot_10[128];
    A(8) u8 slot_11[48];
    u8 *r_x5;
    u8 *r_xw;
    u64 r_38;
    u8 r_r5;
    u8 *r_xw_1;
    u64 r_38_1;
    u64 r_38_2;
    u8 r_dd;
    u8 *r_x5_1;
    u8 *r_xw_2;
    u64 r_38_3;
    u8 r_r5_1;
    u8 *r_xw_3;
    u64 r_38_4;
    u8 *r_x5_2;
    u8 *r_zd;
    u64 r_5q;
    u8 *r_2b;
    u64 r_5t;
    struct s_i8_i8 r_ik;
    u64 r_52;
    u64 r_b4;
    u64 r_ky;
    u64 r_x4;
    u8 *r_lz;
    u8 *r_2b_1;
    u64 r_y8;
    u8 r_e7;
    struct s_i8_i8 r_5d;
    u8 *r_l4;
    u64 r_92;
    u64 r_ma;
    u64 r_5b;
    u8 *r_2b_2;
    u64 r_it;
    u8 r_e7_1;
    u64 r_as;
    u64 r_b4_1;
    u64 r_ky_1;
    u64 r_x4_1;
    u8 *r_2b_3;
    u64 r_xa;
    struct s_i8_i8 r_dw;
    u8 r_e7_2;
    struct s_i8_i8 r_x9;
    struct s_i8_i8 r_dw_1;
    struct s_i8_i8 r_yu;
    u8 *r_x5_3;
    u64 r_52_3;
    u8 *r_zd_1;
    u64 r_at;
    u64 r_gh;
    u64 r_y6;
    u8 *r_2b_4;
    u64 r_24;
    u8 r_2d_1;
    u8 r_2d;
    u8 *r_g0;
    st64((slot_7 + 16), 0ull);
    st64(slot_7, (u64)ld8(a_2));
    st64((slot_7 + 8), ld64(away(a_2, 8ull)));
    st32((slot_7 + 16), ld32(away(a_2, 16ull)));
    memset(slot_6, 0u, 30);
    memset(slot_8, 0u, 128);
    memset(slot_10, 0u, 128);
    st64(slot_9, a_4);
    st64((slot_9 + 8), a_5);
    stp((slot_9 + 16), slot_1);
    memset((slot_9 + 24), 0u, 24);
    capnp_show_show_compare_make_line_up_to_9d3526b9b0726c59(slot_8, slot_7, slot_9, a_6);
    if (!(ld8(slot_8) == 0u)) goto l_arm_f3;
    r_x5 = (slot_8 + 8);
    r_xw = ldp(r_x5);
    r_38 = ld64((slot_8 + 24));
    r_r5 = ld8((slot_8 + 72));
    r_xw_1 = ldp((slot_8 + 96));
    r_38_1 = ld64((slot_8 + 104));
    r_38_2 = ld64((slot_8 + 112));
    st64(slot_11, a_4);
    st64((slot_11 + 8), a_5);
    stp((slot_11 + 16), slot_1);
    memset((slot_11 + 24), 0u, 24);
    capnp_show_show_compare_make_line_up_to_9d3526b9b0726c59(slot_10, slot_7, slot_11, a_7);
    r_dd = ld8((slot_10 + 1));
    if (ld8(slot_10) == 0u) goto l_arm_07;
    goto l_arm_p4;
l_common_68:;
    return;
l_arm_f3:;
    u8 r_dd_1 = ld8((slot_8 + 1));
    st8(a_1, 1u);
    st8(away(a_1, 1ull), r_dd_1);
    memset(away(a_1, 8ull), 0u, 24);
    goto l_common_68;
l_arm_07:;
    r_x5_1 = (slot_10 + 8);
    r_xw_2 = ldp(r_x5_1);
    r_38_3 = ld64((slot_10 + 24));
    r_r5_1 = ld8((slot_10 + 72));
    r_xw_3 = ldp((slot_10 + 96));
    r_38_4 = ld64((slot_10 + 112));
    memset(slot_5, 0u, 30);
    stp(slot_4, slot_1);
    r_x5_2 = (slot_4 + 8);
    memset(r_x5_2, 0u, 16);
    r_zd = (slot_4 + 16);
    u8 r_tv = std_alloc_vec_Vec_grow_amortized_9634afabedddd7ee(slot_4, 8ull);
    if (!r_tv) { r_yu = (struct s_i8_i8){ 1u, 1u }; goto l_capnp_v4; }
    u64 r_38_5 = ld64(r_x5_2);
    r_5q = (r_38_5 + 8ull);
    r_2b = away(ldp(slot_4), r_38_5);
    if (((u64)(uptr)r_2b - (u64)(uptr)((u8 *)g_static_259)) < 8ull) { r_5t = 0ull; goto l_join_mi; }
    st64(r_2b, 0x206567617373656dull);
    goto l_arm_il;
l_join_mi:;
    st8((r_2b + (i64)(r_5t)), ld8((((u8 *)g_static_259) + (i64)(r_5t))));
    u64 r_c4 = (r_5t + 1ull);
    if (!(r_c4 == 8ull)) { r_5t = r_c4; goto l_join_mi; }
l_arm_il:;
    st64(r_x5_2, r_5q);
    r_ik = capnp_show_show_text_Text_push_number(slot_4, a_3);
    if (!(r_ik.f0 == 0u)) goto l_arm_ev;
    r_52 = ld64(r_x5_2);
    if (r_52 > 0x3ffffbeull) { r_e7 = 0u; goto l_arm_n5; }
    u64 r_52_1 = ld64(r_zd);
    if (!((r_52_1 - r_52) < 2ull)) { r_b4 = r_52_1; r_ky = r_52; goto l_join_p0; }
    u8 r_38_6 = std_alloc_vec_Vec_grow_amortized_9634afabedddd7ee(slot_4, 2ull);
    if (!r_38_6) { r_e7 = 1u; goto l_arm_n5; }
    r_b4 = ld64(r_zd);
    r_ky = ld64(r_x5_2);
l_join_p0:;
    r_x4 = (r_ky + 2ull);
    r_lz = ldp(slot_4);
    r_2b_1 = away(r_lz, r_ky);
    if (((u64)(uptr)r_2b_1 - (u64)(uptr)((u8 *)g_static_61)) < 2ull) { r_y8 = 0ull; goto l_join_pd; }
    st16(r_2b_1, 8250u);
    goto l_arm_gf;
l_join_pd:;
    st8((r_2b_1 + (i64)(r_y8)), ld8((((u8 *)g_static_61) + (i64)(r_y8))));
    u64 r_c4_1 = (r_y8 + 1ull);
    if (r_c4_1 == 2ull) goto l_arm_gf;
    r_y8 = r_c4_1;
    goto l_join_pd;
l_arm_ev:;
    struct s_i8_i8 t_fj = (struct s_i8_i8){ 1u, 0u };
    t_fj.f1 = r_ik.f1;
    r_yu = t_fj;
    goto l_capnp_v4;
l_arm_gf:;
    st64(r_x5_2, r_x4);
    st64(r_zd, r_b4);
    if (r_r5 == 1u) goto l_arm_o7;
    goto l_arm_vs;
l_arm_n5:;
    struct s_i8_i8 t_fj_1 = (struct s_i8_i8){ 1u, 0u };
    t_fj_1.f1 = r_e7;
    r_yu = t_fj_1;
    goto l_capnp_v4;
l_arm_o7:;
    r_5d = capnp_show_show_path_push_path(slot_4, r_xw_1, r_38_1);
    if (!(r_5d.f0 == 0u)) goto l_arm_ev_1;
    r_as = ld64(r_x5_2);
    goto l_join_e5;
l_arm_ev_1:;
    struct s_i8_i8 t_fj_2 = (struct s_i8_i8){ 1u, 0u };
    t_fj_2.f1 = r_5d.f1;
    r_yu = t_fj_2;
    goto l_capnp_v4;
l_arm_vs:;
    if (r_x4 > 0x3ffffbcull) { r_e7_1 = 0u; goto l_arm_n5_1; }
    if (!((r_b4 - r_x4) < 4ull)) { r_l4 = r_lz; r_92 = r_b4; r_ma = r_x4; goto l_join_7e; }
    u8 r_ua = std_alloc_vec_Vec_grow_amortized_9634afabedddd7ee(slot_4, 4ull);
    if (!r_ua) { r_e7_1 = 1u; goto l_arm_n5_1; }
    r_l4 = ldp(slot_4);
    r_92 = ld64(r_zd);
    r_ma = ld64(r_x5_2);
l_join_7e:;
    r_5b = (r_ma + 4ull);
    r_2b_2 = away(r_l4, r_ma);
    if (((u64)(uptr)r_2b_2 - (u64)(uptr)((u8 *)g_static_263)) < 4ull) { r_it = 0ull; goto l_join_og; }
    st32(r_2b_2, 0x746f6f72u);
    goto l_capnp_pi;
l_join_og:;
    st8((r_2b_2 + (i64)(r_it)), ld8((((u8 *)g_static_263) + (i64)(r_it))));
    u64 r_c4_2 = (r_it + 1ull);
    if (!(r_c4_2 == 4ull)) { r_it = r_c4_2; goto l_join_og; }
l_capnp_pi:;
    stp(slot_4, r_l4);
    st64(r_x5_2, r_5b);
    st64(r_zd, r_92);
    r_as = r_5b;
    goto l_join_e5;
l_arm_n5_1:;
    struct s_i8_i8 t_fj_3 = (struct s_i8_i8){ 1u, 0u };
    t_fj_3.f1 = r_e7_1;
    r_yu = t_fj_3;
    goto l_capnp_v4;
l_join_e5:;
    if (r_as > 0x3ffffbeull) { r_e7_2 = 0u; goto l_arm_n5_2; }
    u64 r_52_2 = ld64(r_zd);
    if (!((r_52_2 - r_as) < 2ull)) { r_b4_1 = r_52_2; r_ky_1 = r_as; goto l_join_p0_1; }
    u8 r_38_7 = std_alloc_vec_Vec_grow_amortized_9634afabedddd7ee(slot_4, 2ull);
    if (!r_38_7) { r_e7_2 = 1u; goto l_arm_n5_2; }
    r_b4_1 = ld64(r_zd);
    r_ky_1 = ld64(r_x5_2);
l_join_p0_1:;
    r_x4_1 = (r_ky_1 + 2ull);
    r_2b_3 = away(ldp(slot_4), r_ky_1);
    if (((u64)(uptr)r_2b_3 - (u64)(uptr)((u8 *)g_static_330)) < 2ull) { r_xa = 0ull; goto l_join_z8; }
    st16(r_2b_3, 15370u);
    goto l_arm_cq;
l_join_z8:;
    st8((r_2b_3 + (i64)(r_xa)), ld8((((u8 *)g_static_330) + (i64)(r_xa))));
    u64 r_c4_3 = (r_xa + 1ull);
    if (!(r_c4_3 == 2ull)) { r_xa = r_c4_3; goto l_join_z8; }
l_arm_cq:;
    st64(r_x5_2, r_x4_1);
    st64(r_zd, r_b4_1);
    r_dw = capnp_show_show_compare_push_found(slot_4, r_x5);
    if (r_dw.f0 == 0u) goto l_arm_ev_2;
    goto l_arm_ev_3;
l_arm_n5_2:;
    struct s_i8_i8 t_fj_4 = (struct s_i8_i8){ 1u, 0u };
    t_fj_4.f1 = r_e7_2;
    r_yu = t_fj_4;
    goto l_capnp_v4;
l_arm_ev_2:;
    r_x9 = capnp_show_show_text_Text_push(slot_4, ((u8 *)g_static_331), 2ull);
    if (r_x9.f0 == 0u) goto l_arm_xr;
    goto l_arm_ev_4;
l_arm_ev_3:;
    struct s_i8_i8 t_fj_5 = (struct s_i8_i8){ 1u, 0u };
    t_fj_5.f1 = r_dw.f1;
    r_yu = t_fj_5;
    goto l_capnp_v4;
l_arm_xr:;
    r_dw_1 = capnp_show_show_compare_push_found(slot_4, r_x5_1);
    if (r_dw_1.f0 == 0u) goto l_arm_84;
    goto l_arm_ev_5;
l_arm_ev_4:;
    struct s_i8_i8 t_fj_6 = (struct s_i8_i8){ 1u, 0u };
    t_fj_6.f1 = r_x9.f1;
    r_yu = t_fj_6;
    goto l_capnp_v4;
l_arm_84:;
    struct s_i8_i8 r_li = capnp_show_show_text_Text_push(slot_4, ((u8 *)g_static_7), 1ull);
    r_yu = r_li;
    goto l_capnp_v4;
l_arm_ev_5:;
    struct s_i8_i8 t_fj_7 = (struct s_i8_i8){ 1u, 0u };
    t_fj_7.f1 = r_dw_1.f1;
    r_yu = t_fj_7;
l_capnp_v4:;
    if (!(r_yu.f0 == 0u)) goto l_arm_ao;
    mv24((slot_5 + 6), slot_4);
    r_2d = 0u;
    goto l_capnp_tw;
l_arm_ao:;
    if (!(r_yu.f1 == 0u)) goto l_arm_w6;
    memset(slot_3, 0u, 30);
    mv24(slot_2, slot_4);
    r_x5_3 = (slot_2 + 8);
    r_52_3 = ld64(r_x5_3);
    if (r_52_3 > 0x3ffffe9ull) goto l_arm_io;
    r_zd_1 = (slot_2 + 16);
    u64 r_52_4 = ld64(r_zd_1);
    if (!((r_52_4 - r_52_3) < 23ull)) { r_at = r_52_4; r_gh = r_52_3; goto l_join_e5_1; }
    u8 r_wl = std_alloc_vec_Vec_grow_amortized_9634afabedddd7ee(slot_2, 23ull);
    if (!r_wl) goto l_arm_io;
    r_at = ld64(r_zd_1);
    r_gh = ld64(r_x5_3);
l_join_e5_1:;
    r_y6 = (r_gh + 23ull);
    r_2b_4 = away(ldp(slot_2), r_gh);
    if (((u64)(uptr)r_2b_4 - (u64)(uptr)((u8 *)g_static_292)) < 23ull) { r_24 = 0ull; goto l_join_hw; }
    mv23(r_2b_4, ((u8 *)g_static_292));
    goto l_arm_ef;
l_join_hw:;
    st8((r_2b_4 + (i64)(r_24)), ld8((((u8 *)g_static_292) + (i64)(r_24))));
    u64 r_c4_4 = (r_24 + 1ull);
    if (!(r_c4_4 == 23ull)) { r_24 = r_c4_4; goto l_join_hw; }
l_arm_ef:;
    st64(r_x5_3, r_y6);
    st64(r_zd_1, r_at);
    mv24((slot_3 + 6), slot_2);
    r_2d_1 = 0u;
    goto l_capnp_tw_1;
l_arm_io:;
    if (ld64((slot_2 + 16)) == 0ull) { r_2d_1 = 1u; goto l_capnp_tw_1; }
    rattle_dealloc(ldp(slot_2));
    r_2d_1 = 1u;
l_capnp_tw_1:;
    mv24((slot_5 + 6), (slot_3 + 6));
    r_2d = r_2d_1;
    goto l_capnp_tw;
l_arm_w6:;
    if (ld64(r_zd) == 0ull) { r_2d = 1u; goto l_capnp_tw; }
    rattle_dealloc(ldp(slot_4));
    r_2d = 1u;
l_capnp_tw:;
    r_g0 = (slot_6 + 6);
    mv24(r_g0, (slot_5 + 6));
    if (r_38_3 == 0ull) goto l_std_bd;
    rattle_dealloc(r_xw_2);
l_std_bd:;
    if ((r_r5_1 != 1u) ? 1u : (r_38_4 == 0ull)) goto l_join_p4;
    goto l_then_04;
l_arm_p4:;
    if (r_38 == 0ull) goto l_std_bd_1;
    rattle_dealloc(r_xw);
l_std_bd_1:;
    if ((r_r5 != 1u) ? 1u : (r_38_2 == 0ull)) goto l_join_cl;
    rattle_dealloc(r_xw_1);
l_join_cl:;
    st8(a_1, 1u);
    st8(away(a_1, 1ull), r_dd);
    memset(away(a_1, 8ull), 0u, 24);
    goto l_common_68;
l_then_04:;
    rattle_dealloc(r_xw_3);
l_join_p4:;
    if (r_38 == 0ull) goto l_std_bd_2;
    rattle_dealloc(r_xw);
l_std_bd_2:;
    if ((r_r5 != 1u) ? 1u : (r_38_2 == 0ull)) goto l_join_50;
    rattle_dealloc(r_xw_1);
l_join_50:;
    st8(a_1, r_2d);
    st8(away(a_1, 1ull), 0u);
    mv24(away(a_1, 8ull), r_g0);
    goto l_common_68;
}

/* capnp_show::show::compare::make_line_up_to::<#9d3526b9b0726c59> */
static void capnp_show_show_compare_make_line_up_to_9d3526b9b0726c59(u8 *a_1, u8 *a_2, u8 *a_3, u8 *a_4)
{
    A(1) u8 slot_1[1];
    A(8) u8 slot_2[120];
    A(2) u8 slot_3[126];
    u8 *r_5q;
    u8 *r_k5;
    u8 *r_ra;
    struct s_i8_i8 r_5d;
    u8 r_n6;
    u8 r_m0;
    u8 r_dh = ld8(a_2);
    u64 r_qw = ld64(away(a_2, 8ull));
    u32 r_5k = ld32(away(a_2, 16ull));
    memset(slot_3, 0u, 126);
    stp(slot_2, slot_1);
    memset((slot_2 + 8), 0u, 16);
    st8((slot_2 + 24), 1u);
    memset((slot_2 + 25), 0u, 7);
    st64((slot_2 + 32), (u64)r_dh);
    st64((slot_2 + 40), r_qw);
    memset((slot_2 + 48), 0u, 72);
    r_5q = (slot_2 + 64);
    r_k5 = (slot_2 + 88);
    r_ra = (slot_2 + 104);
    st64(r_5q, 1ull);
    mv48((slot_2 + 72), a_3);
    r_5d = capnp_show_show_message_write_json_9d3526b9b0726c59(a_4, 0ull, 0ull, ((u8 *)g_static_294), 0ull, smax32(r_5k, 0u), slot_2);
    if (r_5d.f0 == 0u) goto l_after_kx;
    switch (r_5d.f1) {
    case 2u: goto l_after_kx;
    case 0u: goto l_arm_st;
    case 1u: goto l_arm_st_1;
    default: goto l_noarm_e1;
    }
l_arm_st:;
    if (ld64((slot_2 + 16)) == 0ull) goto l_std_90;
    rattle_dealloc(ldp(slot_2));
l_std_90:;
    if ((ld8(r_5q) != 1u) ? 1u : (ld64(r_ra) == 0ull)) { r_n6 = 1u; r_m0 = 1u; goto l_after_ry; }
    rattle_dealloc(ldp(r_k5));
    r_n6 = 1u;
    r_m0 = 1u;
    goto l_after_ry;
l_arm_st_1:;
    if (ld64((slot_2 + 16)) == 0ull) goto l_std_90_1;
    rattle_dealloc(ldp(slot_2));
l_std_90_1:;
    if ((ld8(r_5q) != 1u) ? 1u : (ld64(r_ra) == 0ull)) { r_n6 = 1u; r_m0 = 0u; goto l_after_ry; }
    rattle_dealloc(ldp(r_k5));
    r_n6 = 1u;
    r_m0 = 0u;
    goto l_after_ry;
l_after_kx:;
    memcpy((slot_3 + 6), slot_2, 120);
    r_n6 = 0u;
    r_m0 = 0u;
l_after_ry:;
    st8(a_1, r_n6);
    st8(away(a_1, 1ull), r_m0);
    memcpy(away(a_1, 8ull), (slot_3 + 6), 120);
    return;
l_noarm_e1:;
    UNREACHABLE();
}

/* capnp_show::show::compare::push_found */
static struct s_i8_i8 capnp_show_show_compare_push_found(u8 *a_1, u8 *a_2)
{
    u8 *r_fx;
    u64 r_52;
    u64 r_as;
    u8 *r_2b;
    u64 r_t9;
    u64 r_i2;
    u64 r_9t;
    u8 *r_rq;
    u64 r_52_1;
    u8 *r_08;
    u64 r_20;
    u64 r_j8;
    u64 r_7n;
    u8 *r_fx_1;
    u8 *r_a6;
    u64 r_9p;
    u64 r_w9;
    u64 r_5q;
    u8 *r_2b_1;
    u64 r_il;
    u8 *static_1r;
    u64 t_sh;
    u8 *r_0v;
    u64 r_i2_1;
    u64 r_1g;
    u64 r_ru;
    u8 *r_2b_2;
    u64 r_es;
    u8 r_fu;
    u8 r_vh;
    r_fx = ldp(a_2);
    r_52 = ld64(away(a_2, 8ull));
    if (!(ld8(away(a_2, 64ull)) == 1u)) { r_as = 0ull; goto l_join_tm; }
    r_as = umin64(r_52, ld64(away(a_2, 112ull)));
l_join_tm:;
    r_2b = away(r_fx, r_as);
    r_t9 = (r_52 - r_as);
    if (r_t9 < 1025ull) { r_9t = r_t9; goto l_capnp_lk; }
    r_i2 = 1024ull;
l_then_pb:;
    if (!((i8)ld8((r_2b + (i64)(r_i2))) < (i8)192u)) { r_9t = r_i2; goto l_capnp_lk; }
    u64 r_0f = (r_i2 + 0xffffffffffffffffull);
    if (r_0f == 0ull) { r_9t = 0ull; goto l_capnp_lk; }
    r_i2 = r_0f;
    goto l_then_pb;
l_capnp_lk:;
    r_rq = away(a_1, 8ull);
    r_52_1 = ld64(r_rq);
    if (r_52_1 > 0x3ffffbfull) { r_fu = 0u; r_vh = 1u; goto l_return_4x; }
    r_08 = away(a_1, 16ull);
    u64 r_52_2 = ld64(r_08);
    if (!(r_52_2 == r_52_1)) { r_20 = r_52_2; r_j8 = r_52_1; goto l_join_jz; }
    u8 r_av = std_alloc_vec_Vec_grow_amortized_9634afabedddd7ee(a_1, 1ull);
    if (!r_av) { r_fu = 1u; r_vh = 1u; goto l_return_4x; }
    r_20 = ld64(r_08);
    r_j8 = ld64(r_rq);
l_join_jz:;
    r_7n = (r_j8 + 1ull);
    r_fx_1 = ldp(a_1);
    st8(away(r_fx_1, r_j8), 32u);
    stp(a_1, r_fx_1);
    st64(r_rq, r_7n);
    st64(r_08, r_20);
    if ((u8)((u8)(r_7n > 0x3ffffc0ull) | (u8)((0x3ffffbfull - r_j8) < r_9t))) { r_fu = 0u; r_vh = 1u; goto l_return_4x; }
    if (!(r_9t > (r_20 - r_7n))) { r_a6 = r_fx_1; r_9p = r_20; r_w9 = r_7n; goto l_join_wm; }
    u8 r_c4 = std_alloc_vec_Vec_grow_amortized_9634afabedddd7ee(a_1, r_9t);
    if (!r_c4) { r_fu = 1u; r_vh = 1u; goto l_return_4x; }
    r_a6 = ldp(a_1);
    r_9p = ld64(r_08);
    r_w9 = ld64(r_rq);
l_join_wm:;
    r_5q = (r_w9 + r_9t);
    memset(r_rq, 0u, 16);
    r_2b_1 = away(r_a6, r_w9);
    if (((u64)(uptr)r_2b_1 - (u64)(uptr)r_2b) < r_9t) { r_il = 0ull; goto l_join_fh; }
    memmove_or_none(r_2b_1, r_2b, r_9t);
    goto l_arm_gc;
l_join_fh:;
    st8((r_2b_1 + (i64)(r_il)), ld8((r_2b + (i64)(r_il))));
    u64 r_36 = (r_il + 1ull);
    if (!(r_36 == r_9t)) { r_il = r_36; goto l_join_fh; }
l_arm_gc:;
    stp(a_1, r_a6);
    st64(r_rq, r_5q);
    st64(r_08, r_9p);
    u8 r_bo = (r_9t < r_t9);
    static_1r = (r_bo ? ((u8 *)g_static_332) : ((u8 *)g_static_294));
    t_sh = (r_bo ? 3ull : 0ull);
    if ((r_5q > 0x3ffffc0ull) ? 1u : ((0x3ffffc0ull - r_5q) < t_sh)) { r_fu = 0u; r_vh = 1u; goto l_return_4x; }
    if (!(t_sh > (r_9p - r_5q))) { r_0v = r_a6; r_i2_1 = r_9p; r_1g = r_5q; goto l_join_jj; }
    u8 r_k1 = std_alloc_vec_Vec_grow_amortized_9634afabedddd7ee(a_1, t_sh);
    if (!r_k1) { r_fu = 1u; r_vh = 1u; goto l_return_4x; }
    r_0v = ldp(a_1);
    r_i2_1 = ld64(r_08);
    r_1g = ld64(r_rq);
l_join_jj:;
    r_ru = (r_1g + t_sh);
    r_2b_2 = away(r_0v, r_1g);
    if (((u64)(uptr)r_2b_2 - (u64)(uptr)static_1r) < t_sh) { r_es = 0ull; goto l_join_fx; }
    memcpy_or_none(r_2b_2, static_1r, t_sh);
    goto l_core_x2;
l_join_fx:;
    st8((r_2b_2 + (i64)(r_es)), ld8((static_1r + (i64)(r_es))));
    u64 r_c4_1 = (r_es + 1ull);
    if (!(r_c4_1 == t_sh)) { r_es = r_c4_1; goto l_join_fx; }
l_core_x2:;
    stp(a_1, r_0v);
    st64(r_rq, r_ru);
    st64(r_08, r_i2_1);
    r_fu = 0u;
    r_vh = 0u;
l_return_4x:;
    struct s_i8_i8 r_3j = (struct s_i8_i8){ 0 };
    r_3j.f0 = r_vh;
    struct s_i8_i8 r_9n = r_3j;
    r_9n.f1 = r_fu;
    return r_9n;
}
