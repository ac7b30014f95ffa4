/* This file is generated: don't edit it. It is the compiled form of the repository's proved sources, translated to C by
 * tools/c_of_module. docs/PROVED.md says what you have to trust. */
#include "capnp_canon.h"

static NEVER u8 typed_conforming_conforms_check_object_5ccc1be374b2e488(u8 *a_1, u64 a_2, u8 *a_3, u8 *a_4, u32 a_5, u8 *a_6);
static NEVER u8 typed_conforming_conforms_is_utf8_by_bytes(u8 *a_1, u32 a_2);
static void typed_conforming_conforms_narrow_elements_error(u8 *a_1, u8 a_2, u8 a_3);
static NEVER u32 typed_conforming_table_tested_word(u8 *a_1, u64 a_2, u32 a_3, u8 *a_4, u32 a_5);

/* typed_streams::conforming::test_message::<#e9487d0add956215> */
void typed_streams_conforming_test_message_e9487d0add956215(u8 *a_1, u8 *a_2, u64 a_3, u32 a_4, u8 *a_5, u8 *a_6)
{
    A(4) u8 slot_1[16];
    A(8) u8 slot_2[64];
    A(8) u8 slot_3[24];
    A(8) u8 slot_4[64];
    u8 r_dh;
    u64 t_qw;
    u32 t_5k;
    u64 r_yz;
    u8 *r_xw;
    u64 r_ma;
    u64 r_9u;
    u64 r_l3;
    u64 r_h3;
    u64 r_5q;
    u64 r_52;
    u64 r_sv;
    u8 *r_ix;
    u32 r_vm;
    u32 r_40;
    u32 r_u2;
    u32 r_ta;
    u64 r_21;
    u64 r_c1;
    u32 r_mb;
    u32 r_kb;
    u8 r_67;
    u32 r_50;
    r_dh = ld8(a_5);
    t_qw = ld64(away(a_5, 8ull));
    t_5k = ld32(away(a_5, 16ull));
    st64((slot_4 + 56), 0ull);
    r_yz = ld64(a_6);
    if (r_yz == 0ull) { r_50 = 12u; goto l_arm_hr; }
    r_xw = ldp(away(a_6, 32ull));
    r_ma = 0ull;
    r_9u = 0ull;
l_join_y7:;
    if ((r_9u & 0xffffffffull) == 0ull) { r_l3 = 0ull; r_h3 = 0ull; goto l_capnp_jc; }
    u64 r_um = ((u64)(r_9u << 3ull) & 0x7fffffff8ull);
    r_l3 = r_um;
    r_h3 = ld64(away(away(r_xw, r_um), 0xfffffffffffffff8ull));
l_capnp_jc:;
    r_5q = (((ld64((r_xw + (i64)(r_l3))) - r_h3) & 0x1fffffffffffffffull) + r_ma);
    u64 r_36 = (r_9u + 1ull);
    if (!(r_36 == r_yz)) { r_ma = r_5q; r_9u = r_36; goto l_join_y7; }
    stp(slot_3, a_6);
    st32((slot_3 + 8), t_5k);
    st32((slot_3 + 12), 0u);
    st64((slot_3 + 16), r_5q);
    r_52 = ld64(r_xw);
    if ((r_52 & 0x1fffffffffffffffull) == 0ull) { r_50 = 23u; goto l_arm_hr; }
    if (!(r_dh == 1u)) { r_sv = t_qw; goto l_arm_eu; }
    if (t_qw == 0ull) { r_50 = 30u; goto l_arm_hr; }
    r_sv = (t_qw + 0xffffffffffffffffull);
    goto l_arm_eu;
l_common_68:;
    return;
l_arm_eu:;
    u8 *r_lz = ldp(away(a_6, 56ull));
    st64(slot_4, 0ull);
    st64((slot_4 + 8), (u64)(uptr)slot_3);
    memset((slot_4 + 16), 0u, 16);
    stp((slot_4 + 32), r_lz);
    st64((slot_4 + 40), (u64)(r_52 << 3ull));
    st32((slot_4 + 48), 0u);
    st32((slot_4 + 52), 0u);
    st32((slot_4 + 56), t_5k);
    st32(slot_1, 5u);
    st32((slot_1 + 4), a_4);
    st32((slot_1 + 8), 0u);
    st32((slot_1 + 12), 0u);
    st32(slot_2, 30u);
    r_ix = (slot_2 + 4);
    memset(r_ix, 0u, 36);
    st64((slot_2 + 40), (u64)r_dh);
    st64((slot_2 + 48), r_sv);
    st64((slot_2 + 56), 0ull);
    u8 r_9p = typed_conforming_conforms_check_object_5ccc1be374b2e488(a_2, a_3, slot_1, slot_4, 0u, slot_2);
    if (!(u8)(r_9p & 1)) { r_vm = 0u; r_40 = 0u; r_u2 = 0u; r_ta = 0u; r_21 = 0ull; r_c1 = 0ull; r_mb = 0u; r_kb = 0u; r_67 = 0u; goto l_typed_o5; }
    r_vm = ld32((slot_2 + 24));
    r_40 = ld32((slot_2 + 28));
    r_u2 = ld32((slot_2 + 32));
    r_ta = ld32((slot_2 + 36));
    r_21 = ld64((slot_2 + 16));
    r_c1 = ld64((slot_2 + 8));
    r_mb = ld32(r_ix);
    r_kb = ld32(slot_2);
    r_67 = 1u;
l_typed_o5:;
    st8(a_1, r_67);
    st32(away(a_1, 8ull), r_kb);
    st32(away(a_1, 12ull), r_mb);
    st64(away(a_1, 16ull), r_c1);
    st64(away(a_1, 24ull), r_21);
    st32(away(a_1, 32ull), r_vm);
    st32(away(a_1, 36ull), r_40);
    st32(away(a_1, 40ull), r_u2);
    st32(away(a_1, 44ull), r_ta);
    goto l_common_68;
l_arm_hr:;
    st8(a_1, 1u);
    st32(away(a_1, 8ull), r_50);
    memset(away(a_1, 12ull), 0u, 36);
    goto l_common_68;
}

/* typed_conforming::conforms::check_object::<#5ccc1be374b2e488> */
static NEVER u8 typed_conforming_conforms_check_object_5ccc1be374b2e488(u8 *a_1, u64 a_2, u8 *a_3, u8 *a_4, u32 a_5, u8 *a_6)
{
    A(8) u8 slot_1[56];
    A(4) u8 slot_2[16];
    A(8) u8 slot_3[64];
    u8 r_dh;
    u8 r_dd;
    u32 r_5k;
    u32 r_5k_1;
    u32 r_5k_2;
    u8 *r_xz;
    u64 r_52;
    u8 *r_xw;
    u64 r_38;
    u8 r_y8;
    u8 *r_rq;
    u8 *r_xw_1;
    u8 *r_08;
    u8 *r_r2;
    u32 r_e3;
    u8 *r_su;
    u64 r_7l;
    u64 r_gw;
    u64 r_qw;
    u64 t_al;
    u8 t_pa;
    u64 r_lc;
    u64 r_nb;
    u64 r_yz;
    u32 r_ag;
    u32 r_38_1;
    u64 r_7w;
    u64 r_un;
    u64 r_o2;
    u64 r_hq;
    u64 r_ep;
    u64 r_y6;
    u64 r_lc_1;
    u8 *r_t9;
    u64 r_52_1;
    u64 r_ep_1;
    u8 switch_wl;
    u64 r_ij;
    u64 r_c4;
    u64 r_24;
    u64 r_gw_1;
    u8 *r_t9_1;
    u64 r_52_2;
    u64 r_eh;
    u32 t_c8;
    u32 r_12;
    u32 r_az;
    u32 r_68;
    u64 r_c0;
    u8 *r_t9_2;
    u64 r_52_3;
    u32 r_12_1;
    u8 *r_t9_3;
    u64 r_52_4;
    u32 r_12_2;
    u8 *r_t9_4;
    u64 r_52_5;
    u32 r_12_3;
    u64 r_c6;
    u8 *r_t9_5;
    u64 r_52_6;
    u64 r_2g;
    u64 r_jg;
    u64 r_6e;
    u32 r_7k;
    u32 r_4n;
    u64 r_f7;
    u8 switch_vz;
    u8 r_a3;
    u32 r_ow;
    u32 r_hw;
    u64 r_yw;
    u64 r_ps;
    u8 *t_f6;
    u8 *t_f6_1;
    u64 r_24_1;
    u64 wide_es;
    u64 indvars_qd;
    u64 r_jd;
    u32 r_bj;
    u8 r_47;
    u8 r_c0_1;
    u8 r_la;
    u8 r_qf;
    u32 r_hk;
    u64 r_wj;
    u32 r_mx;
    u64 r_99;
    u32 r_lf;
    u64 r_g2;
    u32 r_xd;
    u8 r_x2;
    u32 r_5d;
    u32 r_j5;
    u32 r_rr;
    u32 r_hr;
    u8 r_dh_1;
    u32 r_mx_1;
    u8 *r_89;
    u8 *t_f6_2;
    u64 r_24_2;
    u8 *r_3s;
    u64 r_cz;
    u32 r_iz;
    u8 *r_fd;
    u64 r_1x;
    u32 narrow_68;
    u8 *r_x5;
    u8 *r_lk;
    u8 *r_nk;
    u8 *r_p9;
    u8 *r_ix;
    u8 *r_x5_1;
    u8 *r_k0;
    u8 *r_r2_2;
    u8 *r_t9_6;
    u8 *r_sl;
    u8 *r_e7;
    u8 *r_ud;
    u8 *r_ng;
    u8 *r_zh;
    u8 *r_z8;
    u8 *r_sd;
    u8 *r_x5_2;
    u8 *r_zd;
    u8 *r_lk_1;
    u8 *r_nk_1;
    u8 *r_x5_3;
    u8 *r_k0_1;
    u8 *r_zd_1;
    u8 *r_x5_4;
    u8 *r_zd_2;
    u8 *r_lk_2;
    u8 *r_nk_2;
    u64 wide_es_1;
    u64 r_gw_2;
    u8 t_pa_1;
    u64 r_nb_1;
    u8 r_n1;
    u8 t_0c;
    u64 r_nb_2;
    u8 r_n1_1;
    u8 t_pa_2;
    u64 r_nb_3;
    u8 r_n1_2;
    u32 r_w0;
    u32 r_w0_1;
    u32 r_w0_2;
    u64 indvars_vr;
    u32 t_nk;
    u32 r_sr;
    u64 r_24_3;
    u64 r_qw_3;
    u32 r_yf_1;
    u32 common_8i;
    u64 r_ep_2;
    u8 switch_wl_1;
    u8 t_8c;
    u64 r_ij_1;
    u64 r_c6_1;
    u64 r_lc_2;
    u64 r_y0;
    u64 r_52_9;
    u64 r_ij_2;
    u32 r_12_4;
    u64 r_c6_2;
    u64 r_lc_3;
    u64 r_5g;
    u32 r_4r;
    u8 r_8u;
    u64 r_52_10;
    u32 r_ry;
    u64 r_24_4;
    u64 r_gw_3;
    u64 indvars_qd_1;
    u32 switch_4w;
    u8 r_8r;
    u8 r_lu;
    u64 r_ij_3;
    u32 r_12_5;
    u64 r_c6_3;
    u64 r_lc_4;
    u64 r_5g_1;
    u32 r_4r_1;
    u8 r_8u_1;
    u64 r_52_11;
    u32 r_0n;
    u64 r_24_5;
    u64 r_gw_4;
    u64 indvars_qd_2;
    u8 r_bv;
    u8 r_w9;
    u32 r_sl_1;
    u64 r_ko;
    u32 r_8n;
    u8 r_p9_1;
    u8 r_8f;
    u32 r_73;
    u32 r_g6;
    u32 r_8q;
    u64 r_o5;
    u8 r_jm;
    u8 r_fk;
    r_dh = ld8(a_3);
    r_dd = ld8((a_3 + 1));
    r_5k = ld32((a_3 + 4));
    r_5k_1 = ld32((a_3 + 8));
    r_5k_2 = ld32((a_3 + 12));
    st64((slot_3 + 56), 0ull);
    r_xz = away(a_4, 24ull);
    r_52 = ld64(r_xz);
    r_xw = ldp(away(a_4, 32ull));
    r_38 = ld64(away(a_4, 40ull));
    r_y8 = ld8(a_4);
    r_rq = away(a_4, 8ull);
    r_xw_1 = ldp(r_rq);
    r_08 = away(a_4, 16ull);
    r_r2 = away(a_4, 56ull);
    r_e3 = ld32(r_r2);
    r_su = away(a_6, 40ull);
    r_7l = (u64)a_5;
    r_gw = (u64)(r_38 >> 3ull);
    if (!(r_gw > r_7l)) { r_7k = 0u; r_4n = 0u; r_f7 = 0ull; switch_vz = 0u; r_a3 = 0u; r_ow = 0u; r_hw = 0u; r_yw = 0ull; r_ps = 0ull; goto l_arm_1h; }
    r_qw = ld64(away(r_xw, (u64)(r_7l << 3ull)));
    if (r_qw == 0ull) { r_7k = 0u; r_4n = 0u; r_f7 = 0ull; switch_vz = 0u; r_a3 = 0u; r_ow = 0u; r_hw = 0u; r_yw = 0ull; r_ps = 0ull; goto l_arm_1h; }
    t_al = (u64)(uptr)r_xw;
    memset(slot_1, 0u, 56);
    t_pa = (r_y8 != 0u);
    if (t_pa) goto l_capnp_sm;
    u8 *r_r2_1 = away(a_6, 56ull);
    st64(r_r2_1, uadd_sat64(ld64(r_r2_1), 1ull));
    if ((r_qw & 3ull) == 2ull) goto l_capnp_h9;
    goto l_join_bd;
l_capnp_sm:;
    if (!((r_qw & 3ull) == 2ull)) goto l_join_bd;
    st32((slot_1 + 8), 32u);
    r_2g = ld64((slot_1 + 8));
    goto l_capnp_8g;
l_join_bd:;
    u64 r_m6 = ((u64)(r_qw >> 2ull) & 0x3fffffffull);
    r_lc = ((r_7l + 1ull) + r_m6);
    r_nb = (r_gw & 0xffffffffull);
    if (!(r_m6 < 0x20000000ull)) goto l_else_70;
    if (r_lc > r_nb) { r_2g = 23ull; goto l_capnp_8g; }
    r_yz = r_lc;
    goto l_capnp_i5;
l_else_70:;
    u64 r_3o = (r_lc + 0xffffffffc0000000ull);
    if ((r_lc < 0x40000000ull) ? 1u : (r_3o > r_nb)) { r_2g = 23ull; goto l_capnp_8g; }
    r_yz = r_3o;
l_capnp_i5:;
    r_ag = 0u;
    r_38_1 = (u32)r_yz;
    r_7w = r_52;
    r_un = r_qw;
    r_o2 = r_38;
    r_hq = t_al;
    goto l_arm_gc;
l_capnp_h9:;
    capnp_pointers_source_follow_far_5ccc1be374b2e488(slot_1, r_xw_1, r_qw, r_su);
    u64 r_38_2 = ld64((slot_1 + 16));
    u64 r_38_3 = ld64((slot_1 + 8));
    if (ld8(slot_1) == 0u) { r_ag = ld32((slot_1 + 44)); r_38_1 = ld32((slot_1 + 40)); r_7w = r_38_2; r_un = r_38_3; r_o2 = ld64((slot_1 + 32)); r_hq = ld64((slot_1 + 24)); goto l_arm_gc; }
    r_jg = r_38_2;
    r_6e = r_38_3;
    goto l_capnp_qu;
l_arm_gc:;
    switch ((u8)((u8)r_un & 3u)) {
    case 0u: goto l_arm_zd;
    case 1u: goto l_arm_z2;
    case 2u: { r_mx = 13u; r_99 = 0ull; r_lf = 0u; goto l_arm_am; }
    case 3u: goto l_capnp_32;
    default: goto l_default_e1;
    }
l_arm_zd:;
    r_ep = (u64)(r_un >> 32ull);
    r_y6 = (u64)(r_un >> 48ull);
    if ((i32)r_e3 < (i32)1u) { r_mx = 26u; r_99 = 0ull; r_lf = 0u; goto l_arm_am; }
    r_lc_1 = ((r_ep & 65535ull) + r_y6);
    if (((u64)(r_o2 >> 3ull) & 0xffffffffull) < (r_lc_1 + (u64)r_38_1)) { r_mx = 23u; r_99 = 0ull; r_lf = 0u; goto l_arm_am; }
    if (t_pa) goto l_arm_mf;
    if (!(ld8(r_su) == 1u)) goto l_arm_mf;
    r_t9 = away(a_6, 48ull);
    r_52_1 = ld64(r_t9);
    if (r_52_1 < r_lc_1) { r_mx = 30u; r_99 = 0ull; r_lf = 0u; goto l_arm_am; }
    st64(r_su, 1ull);
    st64(r_t9, (r_52_1 - r_lc_1));
l_arm_mf:;
    r_7k = 0u;
    r_4n = ((u32)((u32)r_y6 << 16u) | ((u32)r_ep & 65535u));
    r_f7 = r_7w;
    switch_vz = 1u;
    r_a3 = 2u;
    r_ow = r_ag;
    r_hw = r_38_1;
    r_yw = r_o2;
    r_ps = r_hq;
    goto l_arm_1h;
l_arm_z2:;
    r_ep_1 = (u64)(r_un >> 32ull);
    switch_wl = (u8)((u8)r_ep_1 & 7u);
    r_ij = (u64)(r_un >> 35ull);
    switch (switch_wl) {
    case 7u: goto l_arm_td;
    case 6u: goto l_arm_ff;
    case 0u: goto l_arm_ff_1;
    case 1u: goto l_arm_ff_2;
    case 2u: goto l_arm_ff_2;
    case 3u: goto l_arm_ff_2;
    case 4u: goto l_arm_ff_2;
    case 5u: goto l_arm_ff_2;
    default: goto l_default_e1;
    }
l_arm_td:;
    if ((i32)r_e3 < (i32)1u) { r_mx = 26u; r_99 = 0ull; r_lf = 0u; goto l_arm_am; }
    r_c4 = (r_ij + 1ull);
    r_24 = (u64)r_38_1;
    r_gw_1 = (u64)(r_o2 >> 3ull);
    if ((r_gw_1 & 0xffffffffull) < (r_c4 + r_24)) { r_mx = 23u; r_99 = 0ull; r_lf = 0u; goto l_arm_am; }
    if (t_pa) goto l_arm_ga;
    if (!(ld8(r_su) == 1u)) goto l_arm_ga;
    r_t9_1 = away(a_6, 48ull);
    r_52_2 = ld64(r_t9_1);
    if (!(r_52_2 > r_ij)) { r_mx = 30u; r_99 = 0ull; r_lf = 0u; goto l_arm_am; }
    st64(r_su, 1ull);
    st64(r_t9_1, (r_52_2 - r_c4));
l_arm_ga:;
    if (!(r_gw_1 > r_24)) { r_eh = 0ull; goto l_join_qm; }
    u64 r_qw_1 = ld64(away(((u8 *)(uptr)r_hq), (u64)(r_24 << 3ull)));
    if ((r_qw_1 & 3ull) == 0ull) { r_eh = r_qw_1; goto l_join_qm; }
    r_mx = 11u;
    r_99 = 0ull;
    r_lf = 0u;
    goto l_arm_am;
l_join_qm:;
    t_c8 = (u32)((u32)r_eh >> 2u);
    r_12 = (u32)(u64)(r_eh >> 48ull);
    r_az = ((u32)(u64)(r_eh >> 32ull) & 65535u);
    r_68 = (r_az + r_12);
    r_c0 = (u64)t_c8;
    if (r_ij < ((u64)r_68 * r_c0)) { r_mx = 10u; r_99 = 0ull; r_lf = 0u; goto l_arm_am; }
    if ((u8)((u8)t_pa | (u8)(r_68 != 0u))) goto l_arm_8v;
    if (!(ld8(r_su) == 1u)) goto l_arm_8v;
    r_t9_2 = away(a_6, 48ull);
    r_52_3 = ld64(r_t9_2);
    if (r_52_3 < r_c0) { r_mx = 30u; r_99 = 0ull; r_lf = 0u; goto l_arm_am; }
    st64(r_su, 1ull);
    st64(r_t9_2, (r_52_3 - r_c0));
l_arm_8v:;
    r_7k = t_c8;
    r_4n = ((u32)(r_12 << 16u) | r_az);
    r_f7 = r_7w;
    switch_vz = 1u;
    r_a3 = 5u;
    r_ow = 0u;
    r_hw = (r_38_1 + 1u);
    r_yw = r_o2;
    r_ps = r_hq;
    goto l_arm_1h;
l_arm_ff:;
    r_12_1 = (u32)r_ij;
    if ((i32)r_e3 < (i32)1u) { r_mx = 26u; r_99 = 0ull; r_lf = 0u; goto l_arm_am; }
    if (((u64)(r_o2 >> 3ull) & 0xffffffffull) < (r_ij + (u64)r_38_1)) { r_mx = 23u; r_99 = 0ull; r_lf = 0u; goto l_arm_am; }
    if (t_pa) { r_7k = 0u; r_4n = r_12_1; r_f7 = r_7w; switch_vz = 1u; r_a3 = 4u; r_ow = r_ag; r_hw = r_38_1; r_yw = r_o2; r_ps = r_hq; goto l_arm_1h; }
    if (!(ld8(r_su) == 1u)) { r_7k = 0u; r_4n = r_12_1; r_f7 = r_7w; switch_vz = 1u; r_a3 = 4u; r_ow = r_ag; r_hw = r_38_1; r_yw = r_o2; r_ps = r_hq; goto l_arm_1h; }
    r_t9_3 = away(a_6, 48ull);
    r_52_4 = ld64(r_t9_3);
    if (r_52_4 < r_ij) { r_mx = 30u; r_99 = 0ull; r_lf = 0u; goto l_arm_am; }
    st64(r_su, 1ull);
    st64(r_t9_3, (r_52_4 - r_ij));
    r_7k = 0u;
    r_4n = r_12_1;
    r_f7 = r_7w;
    switch_vz = 1u;
    r_a3 = 4u;
    r_ow = r_ag;
    r_hw = r_38_1;
    r_yw = r_o2;
    r_ps = r_hq;
    goto l_arm_1h;
l_arm_ff_1:;
    r_12_2 = (u32)r_ij;
    if ((i32)r_e3 < (i32)1u) { r_mx = 26u; r_99 = 0ull; r_lf = 0u; goto l_arm_am; }
    if (((u64)(r_o2 >> 3ull) & 0xffffffffull) < (u64)r_38_1) { r_mx = 23u; r_99 = 0ull; r_lf = 0u; goto l_arm_am; }
    if (t_pa) { r_7k = r_12_2; r_4n = 0u; r_f7 = r_7w; switch_vz = 1u; r_a3 = 3u; r_ow = r_ag; r_hw = r_38_1; r_yw = r_o2; r_ps = r_hq; goto l_arm_1h; }
    if (!(ld8(r_su) == 1u)) { r_7k = r_12_2; r_4n = 0u; r_f7 = r_7w; switch_vz = 1u; r_a3 = 3u; r_ow = r_ag; r_hw = r_38_1; r_yw = r_o2; r_ps = r_hq; goto l_arm_1h; }
    st64(r_su, 1ull);
    r_t9_4 = away(a_6, 48ull);
    r_52_5 = ld64(r_t9_4);
    if (r_52_5 < r_ij) { r_mx = 30u; r_99 = 0ull; r_lf = 0u; goto l_arm_am; }
    st64(r_t9_4, (r_52_5 - r_ij));
    r_7k = r_12_2;
    r_4n = 0u;
    r_f7 = r_7w;
    switch_vz = 1u;
    r_a3 = 3u;
    r_ow = r_ag;
    r_hw = r_38_1;
    r_yw = r_o2;
    r_ps = r_hq;
    goto l_arm_1h;
l_arm_ff_2:;
    r_12_3 = (u32)r_ij;
    if ((i32)r_e3 < (i32)1u) { r_mx = 26u; r_99 = 0ull; r_lf = 0u; goto l_arm_am; }
    r_c6 = (u64)(((ld64(away(away(((u8 *)switch_table_typed_conforming_conforms_check_object_5c_e20a29a0), 8 * (r_ep_1 & 7ull)), 0xfffffffffffffff8ull)) * r_ij) + 63ull) >> 6ull);
    if (((u64)(r_o2 >> 3ull) & 0xffffffffull) < (r_c6 + (u64)r_38_1)) { r_mx = 23u; r_99 = 0ull; r_lf = 0u; goto l_arm_am; }
    if (t_pa) goto l_arm_eq;
    if (!(ld8(r_su) == 1u)) goto l_arm_eq;
    r_t9_5 = away(a_6, 48ull);
    r_52_6 = ld64(r_t9_5);
    if (r_52_6 < r_c6) { r_mx = 30u; r_99 = 0ull; r_lf = 0u; goto l_arm_am; }
    st64(r_su, 1ull);
    st64(r_t9_5, (r_52_6 - r_c6));
l_arm_eq:;
    r_7k = r_12_3;
    r_4n = (u32)switch_wl;
    r_f7 = r_7w;
    switch_vz = 1u;
    r_a3 = 3u;
    r_ow = r_ag;
    r_hw = r_38_1;
    r_yw = r_o2;
    r_ps = r_hq;
    goto l_arm_1h;
l_default_e1:;
    UNREACHABLE();
l_capnp_8g:;
    r_jg = 0ull;
    r_6e = r_2g;
l_capnp_qu:;
    r_mx = ((u32)r_6e & 255u);
    r_99 = r_jg;
    r_lf = (u32)(u64)(r_6e >> 32ull);
    goto l_arm_am;
l_capnp_32:;
    u8 r_e6 = ((r_un & 0xffffffffull) == 3ull);
    if (r_e6) { r_7k = 0u; r_4n = 0u; r_f7 = 0ull; switch_vz = 0u; r_a3 = 1u; r_ow = 0u; r_hw = 0u; r_yw = 0ull; r_ps = 0ull; goto l_arm_1h; }
    r_mx = (r_e6 ? 1u : 34u);
    r_99 = 0ull;
    r_lf = 0u;
    goto l_arm_am;
l_arm_1h:;
    switch (r_dh) {
    case 0u: goto l_join_xx;
    case 2u: goto l_arm_y7;
    case 3u: goto l_arm_y7_1;
    case 4u: goto l_arm_r1;
    case 7u: goto l_arm_cz;
    case 1u: goto l_arm_lh;
    case 5u: goto l_arm_t4;
    case 6u: goto l_arm_ha;
    default: goto l_noarm_e1;
    }
l_arm_y7:;
    t_f6 = ((u8 *)(uptr)r_ps);
    switch (r_a3) {
    case 0u: { r_fk = r_a3; goto l_return_ri; }
    case 3u: goto l_arm_cq;
    case 4u: goto l_after_m6;
    case 5u: goto l_after_m6;
    case 1u: { r_g2 = 0ull; r_xd = 0u; r_x2 = 20u; goto l_arm_b3; }
    case 2u: { r_g2 = 0ull; r_xd = 0u; r_x2 = 20u; goto l_arm_b3; }
    default: goto l_noarm_e1_1;
    }
l_arm_cq:;
    if (!((r_4n & 255u) == 2u)) goto l_after_m6;
    if (r_7k == 0u) { r_g2 = 0ull; r_xd = 0u; r_x2 = 24u; goto l_arm_b3; }
    u64 r_es = (u64)(r_7k + 0xffffffffu);
    u8 r_pa = ((ld64(away(t_f6, (((u64)((u64)r_hw << 3ull) + r_es) & 0xffffffff8ull))) & (u64)(255ull << (((u64)(r_es << 3ull) & 56ull) & 63u))) != 0ull);
    r_la = r_pa;
    r_qf = (r_pa ? 24u : 0u);
    r_hk = 0u;
    r_wj = 0ull;
    goto l_typed_i0;
l_after_m6:;
    r_g2 = 0ull;
    r_xd = 0u;
    r_x2 = 15u;
    goto l_arm_b3;
l_noarm_e1_1:;
    UNREACHABLE();
l_arm_y7_1:;
    t_f6_1 = ((u8 *)(uptr)r_ps);
    switch (r_a3) {
    case 0u: { r_fk = r_a3; goto l_return_ri; }
    case 3u: goto l_arm_cq_1;
    case 4u: goto l_after_m6_1;
    case 5u: goto l_after_m6_1;
    case 1u: { r_g2 = 0ull; r_xd = 0u; r_x2 = 20u; goto l_arm_b3; }
    case 2u: { r_g2 = 0ull; r_xd = 0u; r_x2 = 20u; goto l_arm_b3; }
    default: goto l_noarm_e1_2;
    }
l_arm_cq_1:;
    if (!((r_4n & 255u) == 2u)) goto l_after_m6_1;
    if (r_7k == 0u) { r_g2 = 0ull; r_xd = 0u; r_x2 = 24u; goto l_arm_b3; }
    u64 r_es_1 = (u64)(r_7k + 0xffffffffu);
    r_24_1 = (u64)r_hw;
    if ((ld64(away(t_f6_1, (((u64)(r_24_1 << 3ull) + r_es_1) & 0xffffffff8ull))) & (u64)(255ull << (((u64)(r_es_1 << 3ull) & 56ull) & 63u))) == 0ull) goto l_join_zu;
    r_g2 = 0ull;
    r_xd = 0u;
    r_x2 = 24u;
    goto l_arm_b3;
l_after_m6_1:;
    r_g2 = 0ull;
    r_xd = 0u;
    r_x2 = 15u;
    goto l_arm_b3;
l_noarm_e1_2:;
    UNREACHABLE();
l_join_zu:;
    wide_es = (u64)(u32)((r_7k + 7u) >> 3u);
    indvars_qd = 0ull;
    goto l_join_aa;
l_loop_qu:;
    u64 indvars_r7 = (indvars_qd + 1ull);
    if (!(indvars_r7 == wide_es)) { indvars_qd = indvars_r7; goto l_join_aa; }
    goto l_join_xx;
l_join_aa:;
    if ((ld64(away(t_f6_1, (u64)((indvars_qd + r_24_1) << 3ull))) & 0x8080808080808080ull) == 0ull) goto l_loop_qu;
    st64(slot_1, r_f7);
    stp((slot_1 + 8), t_f6_1);
    st64((slot_1 + 16), r_yw);
    st32((slot_1 + 24), r_hw);
    st32((slot_1 + 28), r_ow);
    u8 r_ik = typed_conforming_conforms_is_utf8_by_bytes(slot_1, r_7k);
    r_la = (u8)((u8)r_ik ^ (u8)1u);
    r_qf = (r_ik ? 0u : 4u);
    r_hk = 0u;
    r_wj = 0ull;
    goto l_typed_i0;
l_arm_r1:;
    switch (r_a3) {
    case 0u: { r_fk = r_a3; goto l_return_ri; }
    case 3u: goto l_arm_k5;
    case 4u: goto l_after_m6_2;
    case 5u: goto l_after_m6_2;
    case 1u: { r_g2 = 0ull; r_xd = 0u; r_x2 = 18u; goto l_arm_b3; }
    case 2u: { r_g2 = 0ull; r_xd = 0u; r_x2 = 18u; goto l_arm_b3; }
    default: goto l_noarm_e1_3;
    }
l_arm_k5:;
    if ((r_4n & 255u) == 2u) { r_fk = 0u; goto l_return_ri; }
l_after_m6_2:;
    r_g2 = 0ull;
    r_xd = 0u;
    r_x2 = 14u;
    goto l_arm_b3;
l_noarm_e1_3:;
    UNREACHABLE();
l_arm_cz:;
    memset(slot_1, 0u, 24);
    switch (r_a3) {
    case 0u: { r_jd = 0ull; r_bj = 0u; r_47 = r_a3; r_c0_1 = 0u; goto l_typed_bq; }
    case 3u: goto l_arm_wh;
    case 4u: goto l_arm_rf;
    case 5u: goto l_arm_u0;
    case 1u: goto l_arm_r0;
    case 2u: goto l_arm_r0;
    default: goto l_noarm_e1_4;
    }
l_arm_wh:;
    typed_conforming_conforms_narrow_elements_error(slot_1, r_dd, (u8)r_4n);
    r_jd = ld64((slot_1 + 16));
    r_bj = ld32((slot_1 + 12));
    r_47 = ld8((slot_1 + 8));
    r_c0_1 = (ld8(slot_1) == 1u);
    goto l_typed_bq;
l_arm_rf:;
    u8 switch_2z = ((u8)(r_dd + 255u) < 5u);
    r_jd = 0ull;
    r_bj = 0u;
    r_47 = (switch_2z ? 16u : 0u);
    r_c0_1 = switch_2z;
    goto l_typed_bq;
l_arm_u0:;
    switch (r_dd) {
    case 0u: { r_jd = 0ull; r_bj = 0u; r_47 = 0u; r_c0_1 = 0u; goto l_typed_bq; }
    case 7u: { r_jd = 0ull; r_bj = 0u; r_47 = 0u; r_c0_1 = 0u; goto l_typed_bq; }
    case 1u: goto l_arm_r0_1;
    case 6u: goto l_arm_s9;
    case 2u: goto l_arm_d9;
    case 3u: goto l_arm_d9;
    case 4u: goto l_arm_d9;
    case 5u: goto l_arm_d9;
    default: goto l_noarm_e1_5;
    }
l_arm_r0_1:;
    r_jd = 0ull;
    r_bj = 0u;
    r_47 = 9u;
    r_c0_1 = 1u;
    goto l_typed_bq;
l_arm_s9:;
    u8 r_dt = (r_4n < 0x10000u);
    r_jd = 0ull;
    r_bj = 0u;
    r_47 = (r_dt ? 6u : 0u);
    r_c0_1 = r_dt;
    goto l_typed_bq;
l_arm_d9:;
    u8 r_ed = ((r_4n & 65535u) == 0u);
    r_jd = 0ull;
    r_bj = 0u;
    r_47 = (r_ed ? 7u : 0u);
    r_c0_1 = r_ed;
    goto l_typed_bq;
l_noarm_e1_5:;
    UNREACHABLE();
l_arm_r0:;
    r_jd = 0ull;
    r_bj = 0u;
    r_47 = 19u;
    r_c0_1 = 1u;
    goto l_typed_bq;
l_noarm_e1_4:;
    UNREACHABLE();
l_typed_bq:;
    r_la = r_c0_1;
    r_qf = r_47;
    r_hk = r_bj;
    r_wj = r_jd;
    goto l_typed_i0;
l_arm_lh:;
    r_la = switch_vz;
    r_qf = (switch_vz ? 17u : 0u);
    r_hk = 0u;
    r_wj = 0ull;
    goto l_typed_i0;
l_arm_t4:;
    switch (r_a3) {
    case 0u: goto l_join_xx;
    case 2u: goto l_join_xx;
    case 1u: { r_g2 = 0ull; r_xd = 0u; r_x2 = 21u; goto l_arm_b3; }
    case 3u: { r_g2 = 0ull; r_xd = 0u; r_x2 = 21u; goto l_arm_b3; }
    case 4u: { r_g2 = 0ull; r_xd = 0u; r_x2 = 21u; goto l_arm_b3; }
    case 5u: { r_g2 = 0ull; r_xd = 0u; r_x2 = 21u; goto l_arm_b3; }
    default: goto l_noarm_e1;
    }
l_arm_ha:;
    u8 switch_rj = ((u8)(r_a3 + 255u) < 2u);
    r_la = switch_rj;
    r_qf = (switch_rj ? 19u : 0u);
    r_hk = 0u;
    r_wj = 0ull;
    goto l_typed_i0;
l_noarm_e1:;
    UNREACHABLE();
l_typed_i0:;
    if (r_la) { r_g2 = r_wj; r_xd = r_hk; r_x2 = r_qf; goto l_arm_b3; }
    goto l_join_xx;
l_arm_am:;
    u64 r_52_7 = ld64(r_xz);
    st32(a_6, r_mx);
    st32((a_6 + 4), r_lf);
    st64((a_6 + 8), r_99);
    st64((a_6 + 16), r_52_7);
    st32((a_6 + 24), a_5);
    st32((a_6 + 28), r_5k_1);
    st32((a_6 + 32), r_5k_2);
    st32((a_6 + 36), 0u);
    r_fk = 1u;
    goto l_return_ri;
l_arm_b3:;
    u64 r_52_8 = ld64(r_xz);
    st32(a_6, (u32)r_x2);
    st32((a_6 + 4), r_xd);
    st64((a_6 + 8), r_g2);
    st64((a_6 + 16), r_52_8);
    st32((a_6 + 24), a_5);
    st32((a_6 + 28), r_5k_1);
    st32((a_6 + 32), r_5k_2);
    st32((a_6 + 36), 0u);
    r_fk = 1u;
    goto l_return_ri;
l_join_xx:;
    r_5d = (u32)(r_4n >> 16u);
    switch (r_a3) {
    case 0u: { r_fk = 0u; goto l_return_ri; }
    case 1u: { r_fk = 0u; goto l_return_ri; }
    case 3u: { r_fk = 0u; goto l_return_ri; }
    case 2u: goto l_arm_si;
    case 4u: { r_j5 = 0u; r_rr = 1u; r_hr = r_4n; goto l_arm_t1; }
    case 5u: goto l_arm_si_1;
    default: goto l_noarm_e1_6;
    }
l_arm_si:;
    r_j5 = (r_4n & 65535u);
    r_rr = r_5d;
    r_hr = 1u;
    goto l_arm_t1;
l_arm_si_1:;
    r_j5 = (r_4n & 65535u);
    r_rr = r_5d;
    r_hr = r_7k;
    goto l_arm_t1;
l_noarm_e1_6:;
    UNREACHABLE();
l_arm_t1:;
    r_dh_1 = ld8(a_4);
    u32 r_yf = ld32(r_r2);
    r_mx_1 = ((r_yf == 0x80000000u) ? 0x80000000u : (r_yf + 0xffffffffu));
    u8 *r_rv = ldp(r_rq);
    u64 r_qw_2 = ld64(r_08);
    st64(slot_3, (u64)r_dh_1);
    stp((slot_3 + 8), r_rv);
    st64((slot_3 + 16), r_qw_2);
    st64((slot_3 + 24), r_f7);
    r_89 = (slot_3 + 32);
    st64(r_89, r_ps);
    st64((slot_3 + 40), r_yw);
    st32((slot_3 + 48), r_hw);
    st32((slot_3 + 52), r_ow);
    st32((slot_3 + 56), r_mx_1);
    t_f6_2 = ((u8 *)(uptr)r_ps);
    switch (r_dh) {
    case 5u: goto l_after_pt;
    case 7u: goto l_after_pt;
    case 0u: { r_3s = ((u8 *)g_static_294); r_cz = 0ull; r_iz = 0u; r_fd = ((u8 *)g_static_294); r_1x = 0ull; goto l_typed_1x; }
    case 1u: { r_3s = ((u8 *)g_static_294); r_cz = 0ull; r_iz = 0u; r_fd = ((u8 *)g_static_294); r_1x = 0ull; goto l_typed_1x; }
    case 2u: { r_3s = ((u8 *)g_static_294); r_cz = 0ull; r_iz = 0u; r_fd = ((u8 *)g_static_294); r_1x = 0ull; goto l_typed_1x; }
    case 3u: { r_3s = ((u8 *)g_static_294); r_cz = 0ull; r_iz = 0u; r_fd = ((u8 *)g_static_294); r_1x = 0ull; goto l_typed_1x; }
    case 4u: { r_3s = ((u8 *)g_static_294); r_cz = 0ull; r_iz = 0u; r_fd = ((u8 *)g_static_294); r_1x = 0ull; goto l_typed_1x; }
    case 6u: { r_3s = ((u8 *)g_static_294); r_cz = 0ull; r_iz = 0u; r_fd = ((u8 *)g_static_294); r_1x = 0ull; goto l_typed_1x; }
    default: goto l_noarm_e1_7;
    }
l_after_pt:;
    r_24_2 = (u64)r_5k;
    if (!(a_2 > r_24_2)) { r_3s = a_1; r_cz = a_2; r_iz = r_5k; r_fd = ((u8 *)g_static_294); r_1x = 0ull; goto l_typed_1x; }
    u64 r_c4_1 = (r_24_2 + 1ull);
    r_3s = a_1;
    r_cz = a_2;
    r_iz = r_5k;
    r_fd = away(a_1, (u64)(r_c4_1 << 2ull));
    r_1x = umin64((u64)ld32((a_1 + (i64)((u64)(r_24_2 << 2ull)))), (a_2 - r_c4_1));
    goto l_typed_1x;
l_noarm_e1_7:;
    UNREACHABLE();
l_typed_1x:;
    if (r_rr == 0u) { r_fk = 0u; goto l_return_ri; }
    narrow_68 = (r_rr + r_j5);
    if (r_hr == 0u) { r_fk = 0u; goto l_return_ri; }
    r_x5 = (slot_1 + 8);
    r_lk = (slot_1 + 24);
    r_nk = (slot_1 + 28);
    r_p9 = (slot_2 + 1);
    r_ix = (slot_2 + 4);
    r_x5_1 = (slot_2 + 8);
    r_k0 = (slot_2 + 12);
    r_r2_2 = away(a_6, 56ull);
    r_t9_6 = away(a_6, 48ull);
    r_sl = (a_6 + 4);
    r_e7 = (a_6 + 8);
    r_ud = (a_6 + 16);
    r_ng = (a_6 + 24);
    r_zh = (a_6 + 28);
    r_z8 = (a_6 + 32);
    r_sd = (a_6 + 36);
    r_x5_2 = (slot_1 + 8);
    r_zd = (slot_1 + 16);
    r_lk_1 = (slot_1 + 24);
    r_nk_1 = (slot_1 + 28);
    r_x5_3 = (slot_1 + 8);
    r_k0_1 = (slot_1 + 12);
    r_zd_1 = (slot_1 + 16);
    r_x5_4 = (slot_1 + 8);
    r_zd_2 = (slot_1 + 16);
    r_lk_2 = (slot_1 + 24);
    r_nk_2 = (slot_1 + 28);
    wide_es_1 = (u64)r_rr;
    r_gw_2 = (u64)(r_yw >> 3ull);
    t_pa_1 = (r_dh_1 != 0u);
    r_nb_1 = (r_gw_2 & 0xffffffffull);
    r_n1 = ((i32)r_mx_1 < (i32)1u);
    t_0c = (r_dh_1 == 0u);
    r_nb_2 = (r_gw_2 & 0xffffffffull);
    r_n1_1 = ((i32)r_mx_1 < (i32)1u);
    t_pa_2 = (r_dh_1 != 0u);
    r_nb_3 = (r_gw_2 & 0xffffffffull);
    r_n1_2 = ((i32)r_mx_1 < (i32)1u);
    r_w0 = 0u;
l_join_u5:;
    r_w0_1 = (r_hw + (r_w0 * narrow_68));
    r_w0_2 = (r_w0_1 + r_j5);
    indvars_vr = 0ull;
    goto l_join_je;
l_loop_c4:;
    u64 indvars_r7_1 = (indvars_vr + 1ull);
    if (indvars_r7_1 == wide_es_1) goto l_join_ki;
    indvars_vr = indvars_r7_1;
l_join_je:;
    st32(slot_2, 0u);
    t_nk = (u32)indvars_vr;
    r_sr = (r_w0_2 + t_nk);
    r_24_3 = (u64)r_sr;
    if (!(r_gw_2 > r_24_3)) goto l_typed_kc;
    r_qw_3 = ld64(away(t_f6_2, (u64)(r_24_3 << 3ull)));
    if (r_qw_3 == 0ull) goto l_typed_kc;
    if (!(r_1x > indvars_vr)) { common_8i = 0u; goto l_typed_dt; }
    r_yf_1 = ld32((r_fd + (i64)((u64)(indvars_vr << 2ull))));
    if (!((r_yf_1 & 15u) == 7u)) { common_8i = r_yf_1; goto l_typed_dt; }
    st64(slot_1, r_f7);
    mv16(r_x5, r_89);
    st32(r_lk, r_w0_1);
    st32(r_nk, 0u);
    u32 r_n1_3 = typed_conforming_table_tested_word(r_3s, r_cz, r_yf_1, slot_1, r_j5);
    common_8i = r_n1_3;
l_typed_dt:;
    if (!((r_qw_3 & 3ull) == 1ull)) goto l_after_xg;
    r_ep_2 = (u64)(r_qw_3 >> 32ull);
    switch_wl_1 = (u8)((u8)r_ep_2 & 7u);
    if (!((u8)(switch_wl_1 + 255u) < 5u)) goto l_after_xg;
    t_8c = (switch_wl_1 != 2u);
    if (t_8c) goto l_after_3v;
    switch (common_8i) {
    case 2u: goto l_then_hu;
    case 3u: goto l_then_9h;
    default: goto l_after_3v;
    }
l_then_hu:;
    r_ij_1 = (u64)(r_qw_3 >> 35ull);
    r_c6_1 = (u64)(((u64)(r_ij_1 << 3ull) + 63ull) >> 6ull);
    if (!t_0c) goto l_join_bd_1;
    st64(r_r2_2, uadd_sat64(ld64(r_r2_2), 1ull));
l_join_bd_1:;
    u64 r_m6_1 = ((u64)(r_qw_3 >> 2ull) & 0x3fffffffull);
    r_lc_2 = ((r_24_3 + 1ull) + r_m6_1);
    if (!(r_m6_1 < 0x20000000ull)) goto l_else_70_1;
    if (r_lc_2 > r_nb_2) { r_g6 = 23u; r_8q = 0u; r_o5 = 0ull; goto l_typed_8l; }
    r_y0 = r_lc_2;
    goto l_arm_2y;
l_else_70_1:;
    u64 r_3o_1 = (r_lc_2 + 0xffffffffc0000000ull);
    if ((r_lc_2 < 0x40000000ull) ? 1u : (r_3o_1 > r_nb_2)) { r_g6 = 23u; r_8q = 0u; r_o5 = 0ull; goto l_typed_8l; }
    r_y0 = r_3o_1;
l_arm_2y:;
    if (r_n1_1) { r_g6 = 26u; r_8q = 0u; r_o5 = 0ull; goto l_typed_8l; }
    if (r_nb_2 < (r_y0 + r_c6_1)) { r_g6 = 23u; r_8q = 0u; r_o5 = 0ull; goto l_typed_8l; }
    if (!t_0c) goto l_arm_b5;
    if (!(ld8(r_su) == 1u)) goto l_arm_b5;
    r_52_9 = ld64(r_t9_6);
    if (r_52_9 < r_c6_1) { r_g6 = 30u; r_8q = 0u; r_o5 = 0ull; goto l_typed_8l; }
    st64(r_su, 1ull);
    st64(r_t9_6, (r_52_9 - r_c6_1));
l_arm_b5:;
    if (r_ij_1 == 0ull) { r_g6 = 24u; r_8q = 0u; r_o5 = 0ull; goto l_typed_8l; }
    u64 r_19 = (r_ij_1 + 0xffffffffull);
    if ((ld64(away(t_f6_2, ((((u64)(r_y0 << 3ull) & 0x7fffffff8ull) + (r_19 & 0xffffffffull)) & 0xffffffff8ull))) & (u64)(255ull << (((u64)(r_19 << 3ull) & 56ull) & 63u))) == 0ull) goto l_typed_kc;
    r_g6 = 24u;
    r_8q = 0u;
    r_o5 = 0ull;
    goto l_typed_8l;
l_then_9h:;
    r_ij_2 = (u64)(r_qw_3 >> 35ull);
    r_12_4 = (u32)r_ij_2;
    r_c6_2 = (u64)(((u64)(r_ij_2 << 3ull) + 63ull) >> 6ull);
    if (t_pa_1) goto l_join_bd_2;
    st64(r_r2_2, uadd_sat64(ld64(r_r2_2), 1ull));
l_join_bd_2:;
    u64 r_m6_2 = ((u64)(r_qw_3 >> 2ull) & 0x3fffffffull);
    r_lc_3 = ((r_24_3 + 1ull) + r_m6_2);
    if (!(r_m6_2 < 0x20000000ull)) goto l_else_70_2;
    if (r_lc_3 > r_nb_1) { r_g6 = 23u; r_8q = 0u; r_o5 = 0ull; goto l_typed_8l; }
    r_5g = r_lc_3;
    goto l_arm_mu;
l_else_70_2:;
    u64 r_3o_2 = (r_lc_3 + 0xffffffffc0000000ull);
    if ((r_lc_3 < 0x40000000ull) ? 1u : (r_3o_2 > r_nb_1)) { r_g6 = 23u; r_8q = 0u; r_o5 = 0ull; goto l_typed_8l; }
    r_5g = r_3o_2;
l_arm_mu:;
    r_4r = (u32)r_5g;
    if (r_n1) { r_g6 = 26u; r_8q = 0u; r_o5 = 0ull; goto l_typed_8l; }
    r_8u = (r_nb_1 < (r_5g + r_c6_2));
    if ((u8)((u8)t_pa_1 | (u8)r_8u)) goto l_capnp_ar;
    if (!(ld8(r_su) == 1u)) { r_ry = r_4r; goto l_arm_b5_1; }
    r_52_10 = ld64(r_t9_6);
    if (r_52_10 < r_c6_2) { r_g6 = 30u; r_8q = 0u; r_o5 = 0ull; goto l_typed_8l; }
    st64(r_su, 1ull);
    st64(r_t9_6, (r_52_10 - r_c6_2));
    r_ry = r_4r;
    goto l_arm_b5_1;
l_capnp_ar:;
    if (r_8u) { r_g6 = 23u; r_8q = 0u; r_o5 = 0ull; goto l_typed_8l; }
    r_ry = (r_8u ? 0u : r_4r);
l_arm_b5_1:;
    if (r_ij_2 == 0ull) { r_g6 = 24u; r_8q = 0u; r_o5 = 0ull; goto l_typed_8l; }
    u64 r_19_1 = (r_ij_2 + 0xffffffffull);
    r_24_4 = (u64)r_ry;
    if (!((ld64(away(t_f6_2, (((u64)(r_24_4 << 3ull) + (r_19_1 & 0xffffffffull)) & 0xffffffff8ull))) & (u64)(255ull << (((u64)(r_19_1 << 3ull) & 56ull) & 63u))) == 0ull)) { r_g6 = 24u; r_8q = 0u; r_o5 = 0ull; goto l_typed_8l; }
    r_gw_3 = (u64)((r_ij_2 + 7ull) >> 3ull);
    indvars_qd_1 = 0ull;
    goto l_join_aa_1;
l_loop_ob:;
    u64 indvars_r7_2 = (indvars_qd_1 + 1ull);
    if (!(indvars_r7_2 == r_gw_3)) { indvars_qd_1 = indvars_r7_2; goto l_join_aa_1; }
    goto l_typed_kc;
l_join_aa_1:;
    if ((ld64(away(t_f6_2, (u64)((indvars_qd_1 + r_24_4) << 3ull))) & 0x8080808080808080ull) == 0ull) goto l_loop_ob;
    st64(slot_1, r_f7);
    stp(r_x5_2, t_f6_2);
    st64(r_zd, r_yw);
    st32(r_lk_1, r_ry);
    st32(r_nk_1, 0u);
    u8 r_ik_1 = typed_conforming_conforms_is_utf8_by_bytes(slot_1, r_12_4);
    if (r_ik_1) goto l_typed_kc;
    r_g6 = 4u;
    r_8q = 0u;
    r_o5 = 0ull;
    goto l_typed_8l;
l_after_3v:;
    switch_4w = ((common_8i & 15u) + 0xffffffffu);
    if (!(switch_4w < 15u)) { r_8r = 0u; r_lu = 0u; goto l_typed_ij; }
    r_8r = ld8((((u8 *)switch_table_typed_conforming_conforms_check_object_5c_a350b32c) + (i64)((u64)switch_4w)));
    r_lu = ld8((((u8 *)switch_table_typed_conforming_conforms_check_object_5c_e628d92c) + (i64)((u64)switch_4w)));
l_typed_ij:;
    r_ij_3 = (u64)(r_qw_3 >> 35ull);
    r_12_5 = (u32)r_ij_3;
    r_c6_3 = (u64)(((ld64(away(away(((u8 *)switch_table_typed_conforming_conforms_check_object_5c_e20a29a0), 8 * (r_ep_2 & 7ull)), 0xfffffffffffffff8ull)) * r_ij_3) + 63ull) >> 6ull);
    if (t_pa_2) goto l_join_bd_3;
    st64(r_r2_2, uadd_sat64(ld64(r_r2_2), 1ull));
l_join_bd_3:;
    u64 r_m6_3 = ((u64)(r_qw_3 >> 2ull) & 0x3fffffffull);
    r_lc_4 = ((r_24_3 + 1ull) + r_m6_3);
    if (!(r_m6_3 < 0x20000000ull)) goto l_else_70_3;
    if (r_lc_4 > r_nb_3) { r_g6 = 23u; r_8q = 0u; r_o5 = 0ull; goto l_typed_8l; }
    r_5g_1 = r_lc_4;
    goto l_arm_mu_1;
l_else_70_3:;
    u64 r_3o_3 = (r_lc_4 + 0xffffffffc0000000ull);
    if ((r_lc_4 < 0x40000000ull) ? 1u : (r_3o_3 > r_nb_3)) { r_g6 = 23u; r_8q = 0u; r_o5 = 0ull; goto l_typed_8l; }
    r_5g_1 = r_3o_3;
l_arm_mu_1:;
    r_4r_1 = (u32)r_5g_1;
    if (r_n1_2) { r_g6 = 26u; r_8q = 0u; r_o5 = 0ull; goto l_typed_8l; }
    r_8u_1 = (r_nb_3 < (r_5g_1 + r_c6_3));
    if ((u8)((u8)t_pa_2 | (u8)r_8u_1)) goto l_capnp_ar_1;
    if (!(ld8(r_su) == 1u)) { r_0n = r_4r_1; goto l_arm_g5; }
    r_52_11 = ld64(r_t9_6);
    if (r_52_11 < r_c6_3) { r_g6 = 30u; r_8q = 0u; r_o5 = 0ull; goto l_typed_8l; }
    st64(r_su, 1ull);
    st64(r_t9_6, (r_52_11 - r_c6_3));
    r_0n = r_4r_1;
    goto l_arm_g5;
l_capnp_ar_1:;
    if (r_8u_1) { r_g6 = 23u; r_8q = 0u; r_o5 = 0ull; goto l_typed_8l; }
    r_0n = (r_8u_1 ? 0u : r_4r_1);
l_arm_g5:;
    switch (r_8r) {
    case 0u: goto l_typed_kc;
    case 2u: goto l_arm_eu;
    case 3u: goto l_arm_eu_1;
    case 4u: goto l_arm_u7;
    case 7u: goto l_typed_a3;
    case 1u: goto l_typed_r0;
    case 5u: { r_g6 = 21u; r_8q = 0u; r_o5 = 0ull; goto l_typed_8l; }
    case 6u: goto l_typed_kc;
    default: goto l_default_e1;
    }
l_arm_eu:;
    if (t_8c) { r_g6 = 15u; r_8q = 0u; r_o5 = 0ull; goto l_typed_8l; }
    if (r_ij_3 == 0ull) { r_g6 = 24u; r_8q = 0u; r_o5 = 0ull; goto l_typed_8l; }
    u64 r_19_2 = (r_ij_3 + 0xffffffffull);
    u8 r_pa_1 = ((ld64(away(t_f6_2, (((u64)((u64)r_0n << 3ull) + (r_19_2 & 0xffffffffull)) & 0xffffffff8ull))) & (u64)(255ull << (((u64)(r_19_2 << 3ull) & 56ull) & 63u))) != 0ull);
    r_bv = (u8)r_pa_1;
    r_w9 = (r_pa_1 ? 24u : 0u);
    r_sl_1 = 0u;
    r_ko = 0ull;
    goto l_typed_gu;
l_arm_eu_1:;
    if (t_8c) { r_g6 = 15u; r_8q = 0u; r_o5 = 0ull; goto l_typed_8l; }
    if (r_ij_3 == 0ull) { r_g6 = 24u; r_8q = 0u; r_o5 = 0ull; goto l_typed_8l; }
    u64 r_19_3 = (r_ij_3 + 0xffffffffull);
    r_24_5 = (u64)r_0n;
    if (!((ld64(away(t_f6_2, (((u64)(r_24_5 << 3ull) + (r_19_3 & 0xffffffffull)) & 0xffffffff8ull))) & (u64)(255ull << (((u64)(r_19_3 << 3ull) & 56ull) & 63u))) == 0ull)) { r_g6 = 24u; r_8q = 0u; r_o5 = 0ull; goto l_typed_8l; }
    r_gw_4 = (u64)((r_ij_3 + 7ull) >> 3ull);
    indvars_qd_2 = 0ull;
    goto l_join_aa_2;
l_loop_ob_1:;
    u64 indvars_r7_3 = (indvars_qd_2 + 1ull);
    if (!(indvars_r7_3 == r_gw_4)) { indvars_qd_2 = indvars_r7_3; goto l_join_aa_2; }
    goto l_typed_kc;
l_join_aa_2:;
    if ((ld64(away(t_f6_2, (u64)((indvars_qd_2 + r_24_5) << 3ull))) & 0x8080808080808080ull) == 0ull) goto l_loop_ob_1;
    st64(slot_1, r_f7);
    stp(r_x5_4, t_f6_2);
    st64(r_zd_2, r_yw);
    st32(r_lk_2, r_0n);
    st32(r_nk_2, 0u);
    u8 r_ik_2 = typed_conforming_conforms_is_utf8_by_bytes(slot_1, r_12_5);
    r_bv = (u8)(u8)((u8)r_ik_2 ^ (u8)1u);
    r_w9 = (r_ik_2 ? 0u : 4u);
    r_sl_1 = 0u;
    r_ko = 0ull;
    goto l_typed_gu;
l_arm_u7:;
    r_bv = (u8)t_8c;
    r_w9 = (t_8c ? 14u : 0u);
    r_sl_1 = 0u;
    r_ko = 0ull;
    goto l_typed_gu;
l_typed_a3:;
    memset(slot_1, 0u, 24);
    typed_conforming_conforms_narrow_elements_error(slot_1, r_lu, switch_wl_1);
    r_bv = ld8(slot_1);
    r_w9 = ld8(r_x5_3);
    r_sl_1 = ld32(r_k0_1);
    r_ko = ld64(r_zd_1);
l_typed_gu:;
    if (!(r_bv == 1u)) { r_jm = r_bv; goto l_typed_9j; }
    r_g6 = (u32)r_w9;
    r_8q = r_sl_1;
    r_o5 = r_ko;
    goto l_typed_8l;
l_after_xg:;
    r_8n = (u32)(common_8i >> 4u);
    switch ((common_8i & 15u)) {
    case 1u: { r_p9_1 = 1u; r_8f = 0u; r_73 = 0u; goto l_typed_n5; }
    case 2u: goto l_arm_r0_2;
    case 3u: goto l_arm_r0_3;
    case 4u: goto l_arm_r0_4;
    case 5u: goto l_arm_r0_5;
    case 6u: goto l_arm_r0_6;
    case 8u: goto l_arm_r0_7;
    case 9u: goto l_arm_r0_8;
    case 10u: goto l_arm_r0_9;
    case 11u: goto l_arm_r0_10;
    case 12u: goto l_arm_r0_11;
    case 13u: goto l_arm_r0_12;
    case 14u: goto l_arm_r0_13;
    case 15u: goto l_arm_r0_14;
    default: goto l_default_r0;
    }
l_arm_r0_2:;
    r_p9_1 = 2u;
    r_8f = 0u;
    r_73 = 0u;
    goto l_typed_n5;
l_arm_r0_3:;
    r_p9_1 = 3u;
    r_8f = 0u;
    r_73 = 0u;
    goto l_typed_n5;
l_arm_r0_4:;
    r_p9_1 = 4u;
    r_8f = 0u;
    r_73 = 0u;
    goto l_typed_n5;
l_arm_r0_5:;
    r_p9_1 = 5u;
    r_8f = 0u;
    r_73 = r_8n;
    goto l_typed_n5;
l_arm_r0_6:;
    r_p9_1 = 6u;
    r_8f = 0u;
    r_73 = 0u;
    goto l_typed_n5;
l_arm_r0_7:;
    r_p9_1 = 7u;
    r_8f = 0u;
    r_73 = r_8n;
    goto l_typed_n5;
l_arm_r0_8:;
    r_p9_1 = 7u;
    r_8f = 1u;
    r_73 = r_8n;
    goto l_typed_n5;
l_arm_r0_9:;
    r_p9_1 = 7u;
    r_8f = 2u;
    r_73 = r_8n;
    goto l_typed_n5;
l_arm_r0_10:;
    r_p9_1 = 7u;
    r_8f = 3u;
    r_73 = r_8n;
    goto l_typed_n5;
l_arm_r0_11:;
    r_p9_1 = 7u;
    r_8f = 4u;
    r_73 = r_8n;
    goto l_typed_n5;
l_arm_r0_12:;
    r_p9_1 = 7u;
    r_8f = 5u;
    r_73 = r_8n;
    goto l_typed_n5;
l_arm_r0_13:;
    r_p9_1 = 7u;
    r_8f = 6u;
    r_73 = r_8n;
    goto l_typed_n5;
l_arm_r0_14:;
    r_p9_1 = 7u;
    r_8f = 7u;
    r_73 = r_8n;
    goto l_typed_n5;
l_default_r0:;
    r_p9_1 = 0u;
    r_8f = 0u;
    r_73 = 0u;
l_typed_n5:;
    st8(slot_2, r_p9_1);
    st8(r_p9, r_8f);
    st32(r_ix, r_73);
    st32(r_x5_1, r_iz);
    st32(r_k0, t_nk);
    u8 r_z7 = typed_conforming_conforms_check_object_5ccc1be374b2e488(r_3s, r_cz, slot_2, slot_3, r_sr, a_6);
    r_jm = r_z7;
    goto l_typed_9j;
l_typed_kc:;
    goto l_loop_c4;
l_typed_r0:;
    r_g6 = 17u;
    r_8q = 0u;
    r_o5 = 0ull;
l_typed_8l:;
    st32(a_6, r_g6);
    st32(r_sl, r_8q);
    st64(r_e7, r_o5);
    st64(r_ud, r_f7);
    st32(r_ng, r_sr);
    st32(r_zh, r_iz);
    st32(r_z8, t_nk);
    st32(r_sd, 0u);
    r_fk = 1u;
    goto l_return_ri;
l_typed_9j:;
    if ((u8)(r_jm & 1)) { r_fk = 1u; goto l_return_ri; }
    goto l_loop_c4;
l_join_ki:;
    u32 r_7t = (r_w0 + 1u);
    if (r_7t == r_hr) { r_fk = 0u; goto l_return_ri; }
    r_w0 = r_7t;
    goto l_join_u5;
l_return_ri:;
    return r_fk;
}

/* typed_conforming::conforms::is_utf8_by_bytes */
static NEVER u8 typed_conforming_conforms_is_utf8_by_bytes(u8 *a_1, u32 a_2)
{
    A(8) u8 slot_1[24];
    u8 *r_2b = away(ldp((a_1 + 8)), (u64)((u64)ld32((a_1 + 24)) << 3ull));
    memset(slot_1, 0u, 24);
    core_str_utf8_from_utf8(slot_1, r_2b, (u64)usub_sat32(a_2, 1u));
    return (ld8(slot_1) == 0u);
}

/* typed_conforming::conforms::narrow_elements_error */
static void typed_conforming_conforms_narrow_elements_error(u8 *a_1, u8 a_2, u8 a_3)
{
    u64 r_6f;
    u32 r_3l;
    u32 r_bv;
    u32 r_yl;
    switch (a_3) {
    case 1u: goto l_then_0w;
    case 0u: { r_bv = 0u; goto l_capnp_un; }
    case 6u: { r_bv = 0u; goto l_capnp_un; }
    case 7u: { r_bv = 0u; goto l_capnp_un; }
    case 5u: goto l_arm_h9;
    case 2u: goto l_arm_h9_1;
    case 3u: goto l_arm_h9_2;
    case 4u: goto l_arm_h9_3;
    default: goto l_noarm_e1;
    }
l_then_0w:;
    u8 r_vg = (a_2 != 1u);
    r_6f = (u64)r_vg;
    r_3l = (r_vg ? 8u : 0u);
l_common_6f:;
    st64(a_1, r_6f);
    st32(away(a_1, 8ull), r_3l);
    st32(away(a_1, 12ull), 0u);
    st64(away(a_1, 16ull), 0ull);
    return;
l_arm_h9_1:;
    r_bv = 8u;
    goto l_capnp_un;
l_arm_h9_2:;
    r_bv = 16u;
    goto l_capnp_un;
l_arm_h9_3:;
    r_bv = 32u;
    goto l_capnp_un;
l_arm_h9:;
    r_bv = 64u;
    goto l_capnp_un;
l_noarm_e1:;
    UNREACHABLE();
l_capnp_un:;
    switch (a_2) {
    case 5u: goto l_arm_h9_4;
    case 4u: goto l_arm_h9_5;
    case 3u: goto l_arm_h9_6;
    case 1u: { r_yl = 1u; goto l_capnp_u0; }
    case 2u: goto l_arm_h9_7;
    case 6u: goto l_join_iu;
    case 0u: { r_6f = 0ull; r_3l = 0u; goto l_common_6f; }
    case 7u: { r_6f = 0ull; r_3l = 0u; goto l_common_6f; }
    default: goto l_noarm_e1_1;
    }
l_arm_h9_7:;
    r_yl = 8u;
    goto l_capnp_u0;
l_arm_h9_6:;
    r_yl = 16u;
    goto l_capnp_u0;
l_arm_h9_5:;
    r_yl = 32u;
    goto l_capnp_u0;
l_arm_h9_4:;
    r_yl = 64u;
    goto l_capnp_u0;
l_noarm_e1_1:;
    UNREACHABLE();
l_capnp_u0:;
    if (r_yl > r_bv) goto l_join_wm;
    r_6f = 0ull;
    r_3l = 0u;
    goto l_common_6f;
l_join_iu:;
    if (a_3 == 6u) { r_6f = 0ull; r_3l = 0u; goto l_common_6f; }
l_join_wm:;
    r_6f = 1ull;
    r_3l = 16u;
    goto l_common_6f;
}

/* typed_conforming::table::tested_word */
static NEVER u32 typed_conforming_table_tested_word(u8 *a_1, u64 a_2, u32 a_3, u8 *a_4, u32 a_5)
{
    u8 *r_rv;
    u64 r_7l;
    u64 r_24;
    u32 r_4t;
    u64 r_pi;
    u64 r_es;
    u32 common_hy;
    u64 t_24;
    u64 r_vl;
    u32 common_ws;
    u64 r_c4;
    u32 common_lv;
    u64 r_bm;
    r_rv = ldp((a_4 + 8));
    if (!((a_3 & 15u) == 7u)) { common_hy = a_3; goto l_common_2g; }
    r_7l = (u64)a_5;
    r_24 = (u64)ld32((a_4 + 24));
    r_4t = a_3;
    r_pi = 0ull;
l_join_c2:;
    r_es = (u64)(u32)(r_4t >> 4u);
    if ((u8)((u8)(r_pi <= r_es) & (u8)(a_2 > r_es))) goto l_typed_8c;
    common_hy = 0u;
l_common_2g:;
    return common_hy;
l_typed_8c:;
    t_24 = (u64)ld32((a_1 + (i64)((u64)(r_es << 2ull))));
    r_vl = (u64)(t_24 >> 2ull);
    if (!(r_vl < r_7l)) { common_ws = 0u; goto l_typed_41; }
    common_ws = ((u32)(u64)(ld64(away(r_rv, (u64)((r_vl + r_24) << 3ull))) >> (((u64)(t_24 << 4ull) & 48ull) & 63u)) & 65535u);
l_typed_41:;
    r_c4 = (r_es + 1ull);
    if (!(a_2 > r_c4)) { common_lv = 0u; goto l_typed_5f; }
    common_lv = ld32((a_1 + (i64)((u64)(r_c4 << 2ull))));
l_typed_5f:;
    if (!(common_ws == common_lv)) goto l_else_96;
    u64 r_4i = (r_es + 2ull);
    if (a_2 > r_4i) { r_bm = r_4i; goto l_typed_75; }
    common_hy = 0u;
    goto l_common_2g;
l_else_96:;
    u64 r_1h = (r_es + 3ull);
    if (a_2 > r_1h) { r_bm = r_1h; goto l_typed_75; }
    common_hy = 0u;
    goto l_common_2g;
l_typed_75:;
    u32 r_yf = ld32((a_1 + (i64)((u64)(r_bm << 2ull))));
    if ((r_yf & 15u) == 7u) { r_4t = r_yf; r_pi = r_c4; goto l_join_c2; }
    common_hy = r_yf;
    goto l_common_2g;
}
