/* This file is generated: don't edit it. It is the compiled form of the repository's proved sources, translated to C by
 * tools/c_of_module. docs/PROVED.md says what you have to trust. */
#include "capnp_canon.h"

static u8 core_fmt_formatter_Formatter_write_indented_line_bf264_85bf5cf7(u8 *a_1, u8 *a_2, u64 a_3, u8 a_4);
static u8 core_fmt_utf8_is_utf8(u8 *a_1, u64 a_2);
static NEVER u8 core_fmt_formatter_Formatter_cut_and_fill_bf264aed5fa78656(u8 *a_1, u8 *a_2, u64 a_3);
static u8 core_fmt_formatter_Formatter_write_char_n_times_bf264a_5c1f4f90(u8 *a_1, u32 a_2, u64 a_3);
static u8 core_fmt_formatter_Formatter_write_indented_line_b6936_43eaca3d(u8 *a_1, u8 *a_2, u64 a_3, u8 a_4);
static u8 core_fmt_formatter_Formatter_write_char_n_times_b6936a_f8339ab4(u8 *a_1, u32 a_2, u64 a_3);
static u8 core_fmt_formatter_Formatter_write_indented_line_e28d6_00a95c6c(u8 *a_1, u8 *a_2, u64 a_3, u8 a_4);

/* std_io::io::print_to::<#98831ff3adad6f75> */
void std_io_io_print_to_98831ff3adad6f75(u8 *a_1, u32 a_2, u8 *a_3, u64 a_4)
{
    A(8) u8 slot_1[1136];
    A(1) u8 slot_2[64];
    A(8) u8 slot_3[64];
    A(8) u8 slot_4[1176];
    u8 *r_ix;
    u8 *r_s4;
    u8 *r_uy;
    u8 *r_ky;
    u8 *r_lp;
    u8 *r_e1;
    u64 r_pv;
    u64 r_m0;
    u8 *r_w9;
    u8 *r_62;
    u64 r_0f;
    u8 r_47;
    u64 r_km;
    u64 r_c4;
    u64 r_4x;
    u8 r_bu;
    u8 r_b2;
    u8 r_jt;
    u8 r_qc;
    u8 r_yd;
    u8 r_x1;
    u32 r_g6;
    u64 r_qc_1;
    u64 r_bi;
    u8 r_vm;
    u8 r_40;
    u8 r_u2;
    u8 r_ta;
    u8 r_21;
    u32 r_c1;
    u64 r_mb;
    u64 r_kb;
    memset(slot_3, 0u, 64);
    st32(slot_4, a_2);
    r_ix = (slot_4 + 4);
    memset(r_ix, 0u, 1132);
    r_s4 = (slot_4 + 1136);
    st32(r_s4, 32u);
    r_uy = (slot_4 + 1140);
    r_ky = (slot_4 + 1152);
    memset(r_uy, 0u, 12);
    st64(r_ky, 0xffffffffffffffffull);
    r_lp = (slot_4 + 1160);
    memset(r_lp, 0u, 16);
    mv24(slot_1, r_s4);
    st32(r_s4, 32u);
    memset(r_uy, 0u, 12);
    st64(r_ky, 0xffffffffffffffffull);
    r_e1 = (slot_4 + 1032);
    r_pv = ld64(r_e1);
    r_m0 = a_4;
    r_w9 = a_3;
l_arm_td:;
    r_62 = away(r_w9, 1ull);
    r_0f = (r_m0 + 0xffffffffffffffffull);
    r_47 = ld8(r_w9);
    if (!(r_pv > 1023ull)) { r_km = r_pv; goto l_std_41; }
    u8 r_m5 = std_io_io_buffer_Buffer_flush(slot_4);
    u64 r_38 = ld64(r_e1);
    if (r_m5 ? (r_38 < 1024ull) : 0u) { r_km = r_38; goto l_std_41; }
    goto l_core_pf;
l_std_41:;
    st8((r_ix + (i64)(r_km)), r_47);
    r_c4 = (r_km + 1ull);
    st64(r_e1, r_c4);
    if (!(r_0f == 0ull)) { r_pv = r_c4; r_m0 = r_0f; r_w9 = r_62; goto l_arm_td; }
    mv24(r_s4, slot_1);
    mv24(slot_1, r_s4);
    st32(r_s4, 32u);
    memset(r_uy, 0u, 12);
    st64(r_ky, 0xffffffffffffffffull);
    if (ld64(r_lp) == 0ull) goto l_arm_ku;
    goto l_else_7o;
l_core_pf:;
    mv24(r_s4, slot_1);
    r_b2 = 0u;
    goto l_join_2k;
l_arm_ku:;
    if (!(r_km > 1022ull)) { r_4x = r_c4; goto l_std_vs; }
    u8 r_m5_1 = std_io_io_buffer_Buffer_flush(slot_4);
    u64 r_38_1 = ld64(r_e1);
    if (r_m5_1 ? (r_38_1 < 1024ull) : 0u) { r_4x = r_38_1; goto l_std_vs; }
    r_bu = 0u;
    goto l_core_pf_1;
l_std_vs:;
    st8((r_ix + (i64)(r_4x)), 10u);
    st64(r_e1, (r_4x + 1ull));
    r_bu = 1u;
    goto l_core_pf_1;
l_else_7o:;
    u8 r_9h = core_fmt_formatter_Formatter_write_indented_bf264aed5fa78656(slot_4, ((u8 *)g_static_7), 1ull);
    r_bu = (r_9h == 0u);
l_core_pf_1:;
    mv24(r_s4, slot_1);
    r_b2 = r_bu;
l_join_2k:;
    st32(slot_1, ld32(slot_4));
    memcpy((slot_1 + 4), r_ix, 1132);
    u8 r_vx = std_io_io_buffer_Buffer_flush(slot_1);
    if (!(u8)((u8)r_b2 & (u8)r_vx)) goto l_join_to;
    memset(slot_3, 0u, 64);
    r_vm = 0u;
    r_40 = 0u;
    r_u2 = 0u;
    r_ta = 0u;
    r_21 = 0u;
    r_c1 = 0u;
    r_mb = 0ull;
    r_kb = 0ull;
    goto l_std_o5;
l_join_to:;
    if (!(ld8((slot_1 + 1040)) == 1u)) goto l_arm_or;
    u8 r_r5 = ld8((slot_1 + 1048));
    u8 r_dd = ld8((slot_1 + 1049));
    u8 r_sw = ld8((slot_1 + 1050));
    u8 r_dd_1 = ld8((slot_1 + 1051));
    u32 r_uq = ld32((slot_1 + 1052));
    u64 r_38_2 = ld64((slot_1 + 1056));
    u64 r_38_3 = ld64((slot_1 + 1064));
    mv64(slot_2, (slot_1 + 1072));
    r_jt = r_r5;
    r_qc = r_dd;
    r_yd = r_sw;
    r_x1 = r_dd_1;
    r_g6 = r_uq;
    r_qc_1 = r_38_2;
    r_bi = r_38_3;
    goto l_join_qx;
l_arm_or:;
    memset(slot_2, 46u, 64);
    r_jt = 2u;
    r_qc = 41u;
    r_yd = 15u;
    r_x1 = 0u;
    r_g6 = 0u;
    r_qc_1 = 0x657474616d726f66ull;
    r_bi = 0x2e726f7272652072ull;
l_join_qx:;
    mv64(slot_3, slot_2);
    r_vm = 1u;
    r_40 = r_jt;
    r_u2 = r_qc;
    r_ta = r_yd;
    r_21 = r_x1;
    r_c1 = r_g6;
    r_mb = r_qc_1;
    r_kb = r_bi;
l_std_o5:;
    st8(a_1, r_vm);
    st8(away(a_1, 8ull), r_40);
    st8(away(a_1, 9ull), r_u2);
    st8(away(a_1, 10ull), r_ta);
    st8(away(a_1, 11ull), r_21);
    st32(away(a_1, 12ull), r_c1);
    st64(away(a_1, 16ull), r_mb);
    st64(away(a_1, 24ull), r_kb);
    mv64(away(a_1, 32ull), slot_3);
    return;
}

/* std_io::io::buffer::Buffer::flush */
u8 std_io_io_buffer_Buffer_flush(u8 *a_1)
{
    A(8) u8 slot_1[88];
    A(8) u8 slot_2[88];
    A(8) u8 slot_3[80];
    u64 r_52;
    u8 common_p7;
    u8 *r_1x;
    u32 r_iy;
    u64 t_mz;
    u64 r_in;
    u64 r_ey;
    u64 r_c4;
    u64 r_5p;
    u64 r_11;
    u32 r_ky;
    u64 r_pa;
    u32 r_p1;
    u8 r_31;
    u8 r_zo;
    u8 r_8e;
    u8 r_fq;
    u8 *r_ym = away(a_1, 1032ull);
    r_52 = ld64(r_ym);
    st64(r_ym, 0ull);
    if (r_52 > 1024ull) { common_p7 = 0u; goto l_common_57; }
    goto l_join_oo;
l_common_57:;
    return common_p7;
l_join_oo:;
    r_1x = away(a_1, 4ull);
    r_iy = ld32(a_1);
    t_mz = (r_52 + 63ull);
    r_in = 0ull;
    r_ey = 0ull;
l_arm_x4:;
    r_c4 = (r_ey + 1ull);
    if (r_52 > r_in) goto l_join_gp;
    common_p7 = 1u;
    goto l_common_57;
l_join_gp:;
    r_5p = (r_52 - r_in);
    r_11 = c_write(r_iy, away(r_1x, r_in), r_5p);
    if (!((i64)r_11 < (i64)0ull)) goto l_else_wv;
    r_ky = rattle_errno();
    if (r_ky == 4u) { r_pa = r_in; goto l_join_p8; }
    std_io_io_error_Error_from_raw_os_error(slot_2, r_ky);
    u8 r_r5 = ld8(slot_2);
    u8 r_dd = ld8((slot_2 + 1));
    u8 r_sw = ld8((slot_2 + 2));
    u8 r_dd_1 = ld8((slot_2 + 3));
    u32 r_uq = ld32((slot_2 + 4));
    memcpy(slot_3, (slot_2 + 8), 80);
    r_p1 = r_uq;
    r_31 = r_dd_1;
    r_zo = r_sw;
    r_8e = r_dd;
    r_fq = r_r5;
    goto l_arm_zg;
l_else_wv:;
    if (!(r_11 == 0ull)) goto l_else_p6;
    std_io_io_error_Error_from_bytes(slot_1, 2u, 23u, ((u8 *)g_static_8), 28ull, 28ull);
    u8 r_r5_1 = ld8(slot_1);
    u8 r_dd_2 = ld8((slot_1 + 1));
    u8 r_sw_1 = ld8((slot_1 + 2));
    u8 r_dd_3 = ld8((slot_1 + 3));
    u32 r_uq_1 = ld32((slot_1 + 4));
    memcpy(slot_3, (slot_1 + 8), 80);
    r_p1 = r_uq_1;
    r_31 = r_dd_3;
    r_zo = r_sw_1;
    r_8e = r_dd_2;
    r_fq = r_r5_1;
    goto l_arm_zg;
l_else_p6:;
    r_pa = (umin64(r_11, r_5p) + r_in);
l_join_p8:;
    if (!(r_ey == t_mz)) { r_in = r_pa; r_ey = r_c4; goto l_arm_x4; }
    if (r_52 > r_pa) goto l_std_a6;
    common_p7 = 1u;
    goto l_common_57;
l_std_a6:;
    memset(slot_3, 0u, 80);
    r_p1 = 4u;
    r_31 = 0u;
    r_zo = 0u;
    r_8e = 35u;
    r_fq = 0u;
l_arm_zg:;
    st64(away(a_1, 1040ull), 1ull);
    st8(away(a_1, 1048ull), r_fq);
    st8(away(a_1, 1049ull), r_8e);
    st8(away(a_1, 1050ull), r_zo);
    st8(away(a_1, 1051ull), r_31);
    st32(away(a_1, 1052ull), r_p1);
    memcpy(away(a_1, 1056ull), slot_3, 80);
    common_p7 = 0u;
    goto l_common_57;
}

/* std_io::io::error::Error::from_bytes */
void std_io_io_error_Error_from_bytes(u8 *a_1, u8 a_2, u8 a_3, u8 *a_4, u64 a_5, u64 a_6)
{
    u8 r_pe;
    u64 t_6o;
    u64 t_pt;
    u64 t_ed;
    u64 t_ni;
    u64 t_pq;
    u64 t_bt;
    u64 t_1w;
    u8 r_47;
    u64 t_6o_1;
    u64 t_pt_1;
    u64 t_ed_1;
    u64 t_ni_1;
    u64 t_pq_1;
    u64 t_bt_1;
    u64 t_1w_1;
    u8 r_47_1;
    u64 t_6o_2;
    u64 t_pt_2;
    u64 t_ed_2;
    u64 t_ni_2;
    u64 t_pq_2;
    u64 t_bt_2;
    u64 t_1w_2;
    u8 r_47_2;
    u64 t_6o_3;
    u64 t_pt_3;
    u64 t_ed_3;
    u64 t_ni_3;
    u64 t_pq_3;
    u64 t_bt_3;
    u64 t_1w_3;
    u8 r_47_3;
    u64 t_6o_4;
    u64 t_pt_4;
    u64 t_ed_4;
    u64 t_ni_4;
    u64 t_pq_4;
    u64 t_bt_4;
    u64 t_1w_4;
    u8 r_47_4;
    u64 t_6o_5;
    u64 t_pt_5;
    u64 t_ed_5;
    u64 t_ni_5;
    u64 t_pq_5;
    u64 t_bt_5;
    u64 t_1w_5;
    u8 r_47_5;
    u64 t_6o_6;
    u64 t_pt_6;
    u64 t_ed_6;
    u64 t_ni_6;
    u64 t_pq_6;
    u64 t_bt_6;
    u64 t_1w_6;
    u8 r_47_6;
    u64 t_6o_7;
    u64 t_pt_7;
    u64 t_ed_7;
    u64 t_ni_7;
    u64 t_pq_7;
    u64 t_bt_7;
    u64 t_1w_7;
    u8 r_47_7;
    u64 t_6o_8;
    u64 t_pt_8;
    u64 t_ed_8;
    u64 t_ni_8;
    u64 t_pq_8;
    u64 t_bt_8;
    u64 t_1w_8;
    u8 r_47_8;
    u64 t_6o_9;
    u64 t_pt_9;
    u64 t_ed_9;
    u64 r_zo;
    u64 r_lj;
    u64 r_42;
    u64 r_5r;
    u64 r_pa;
    u64 r_7p;
    u64 r_o8;
    u64 r_bf;
    u64 r_bp;
    u64 r_m3;
    u64 r_1s;
    u64 r_2r;
    u64 r_pk;
    u64 r_wb;
    u64 r_3n;
    u64 r_bo;
    u64 r_zs;
    u64 r_v3;
    u64 r_ua;
    u64 r_v9;
    u64 r_ps;
    u64 r_gi;
    u64 r_3f;
    u64 r_pn;
    u64 r_je;
    u64 r_jk;
    u64 r_l0;
    u64 r_qi;
    u64 r_vv;
    u64 r_sr;
    u64 r_qg;
    u64 r_q7;
    u64 r_58;
    u64 r_6f;
    u64 r_w2;
    u64 r_mm;
    u64 r_0r;
    u64 r_75;
    u8 r_fn;
    u64 r_i4;
    u64 r_1t;
    u64 r_a1;
    u8 r_cc;
    u64 r_5r_1;
    u64 r_og;
    u64 r_7z;
    u8 r_m1;
    u64 r_nq;
    u64 r_7w;
    u64 r_w5;
    u8 r_0i;
    u64 r_x9;
    u64 r_vm;
    u64 r_4a;
    u8 r_75_1;
    u64 r_9s;
    u64 r_co;
    u64 r_0c;
    u8 r_9q;
    u64 r_zy;
    u64 r_ph;
    u64 r_hk;
    u8 r_tw;
    u64 r_hl;
    u64 r_7a;
    u64 r_1y;
    u8 r_if;
    u64 r_uk;
    u64 r_3d;
    u64 r_6w;
    u8 r_93;
    u64 r_gg;
    u64 r_zt;
    u64 r_m6;
    u8 r_jc;
    u64 r_vw;
    u64 r_xz;
    u64 t_pq_9;
    u64 t_bt_9;
    u64 r_zo_1;
    u64 r_jg;
    u64 r_a3;
    if (a_5 == 0ull) { r_zo = 0x2e000000ull; r_lj = 11776ull; r_42 = 0x2e00000000000000ull; r_5r = 0x2e0000000000ull; r_pa = 0x2e000000ull; r_7p = 11776ull; r_o8 = 0x2e00000000000000ull; r_bf = 0x2e0000000000ull; r_bp = 0x2e000000ull; r_m3 = 11776ull; r_1s = 0x2e00000000000000ull; r_2r = 0x2e0000000000ull; r_pk = 0x2e000000ull; r_wb = 11776ull; r_3n = 0x2e00000000000000ull; r_bo = 0x2e0000000000ull; r_zs = 0x2e000000ull; r_v3 = 11776ull; r_ua = 0x2e00000000000000ull; r_v9 = 0x2e0000000000ull; r_ps = 0x2e000000ull; r_gi = 11776ull; r_3f = 0x2e00000000000000ull; r_pn = 0x2e0000000000ull; r_je = 0x2e000000ull; r_jk = 11776ull; r_l0 = 0x2e00000000000000ull; r_qi = 0x2e0000000000ull; r_vv = 0x2e000000ull; r_sr = 11776ull; r_qg = 0x2e00000000000000ull; r_q7 = 0x2e0000000000ull; r_58 = 0x2e000000ull; r_6f = 11776ull; r_w2 = 0x2e00000000000000ull; r_mm = 0x2e0000000000ull; r_0r = 0x2e000000ull; r_75 = 11776ull; r_fn = 46u; r_i4 = 0x2e0000ull; r_1t = 0x2e00000000ull; r_a1 = 0x2e000000000000ull; r_cc = 46u; r_5r_1 = 0x2e0000ull; r_og = 0x2e00000000ull; r_7z = 0x2e000000000000ull; r_m1 = 46u; r_nq = 0x2e0000ull; r_7w = 0x2e00000000ull; r_w5 = 0x2e000000000000ull; r_0i = 46u; r_x9 = 0x2e0000ull; r_vm = 0x2e00000000ull; r_4a = 0x2e000000000000ull; r_75_1 = 46u; r_9s = 0x2e0000ull; r_co = 0x2e00000000ull; r_0c = 0x2e000000000000ull; r_9q = 46u; r_zy = 0x2e0000ull; r_ph = 0x2e00000000ull; r_hk = 0x2e000000000000ull; r_tw = 46u; r_hl = 0x2e0000ull; r_7a = 0x2e00000000ull; r_1y = 0x2e000000000000ull; r_if = 46u; r_uk = 0x2e0000ull; r_3d = 0x2e00000000ull; r_6w = 0x2e000000000000ull; r_93 = 46u; r_gg = 0x2e0000ull; r_zt = 0x2e00000000ull; r_m6 = 0x2e000000000000ull; r_jc = 46u; r_vw = 0x2e0000ull; r_xz = 0x2e00000000ull; goto l_std_tz; }
    r_pe = ld8(a_4);
    if (a_5 == 1ull) { r_zo = 0x2e000000ull; r_lj = 11776ull; r_42 = 0x2e00000000000000ull; r_5r = 0x2e0000000000ull; r_pa = 0x2e000000ull; r_7p = 11776ull; r_o8 = 0x2e00000000000000ull; r_bf = 0x2e0000000000ull; r_bp = 0x2e000000ull; r_m3 = 11776ull; r_1s = 0x2e00000000000000ull; r_2r = 0x2e0000000000ull; r_pk = 0x2e000000ull; r_wb = 11776ull; r_3n = 0x2e00000000000000ull; r_bo = 0x2e0000000000ull; r_zs = 0x2e000000ull; r_v3 = 11776ull; r_ua = 0x2e00000000000000ull; r_v9 = 0x2e0000000000ull; r_ps = 0x2e000000ull; r_gi = 11776ull; r_3f = 0x2e00000000000000ull; r_pn = 0x2e0000000000ull; r_je = 0x2e000000ull; r_jk = 11776ull; r_l0 = 0x2e00000000000000ull; r_qi = 0x2e0000000000ull; r_vv = 0x2e000000ull; r_sr = 11776ull; r_qg = 0x2e00000000000000ull; r_q7 = 0x2e0000000000ull; r_58 = 0x2e000000ull; r_6f = 11776ull; r_w2 = 0x2e00000000000000ull; r_mm = 0x2e0000000000ull; r_0r = 0x2e000000ull; r_75 = 11776ull; r_fn = r_pe; r_i4 = 0x2e0000ull; r_1t = 0x2e00000000ull; r_a1 = 0x2e000000000000ull; r_cc = 46u; r_5r_1 = 0x2e0000ull; r_og = 0x2e00000000ull; r_7z = 0x2e000000000000ull; r_m1 = 46u; r_nq = 0x2e0000ull; r_7w = 0x2e00000000ull; r_w5 = 0x2e000000000000ull; r_0i = 46u; r_x9 = 0x2e0000ull; r_vm = 0x2e00000000ull; r_4a = 0x2e000000000000ull; r_75_1 = 46u; r_9s = 0x2e0000ull; r_co = 0x2e00000000ull; r_0c = 0x2e000000000000ull; r_9q = 46u; r_zy = 0x2e0000ull; r_ph = 0x2e00000000ull; r_hk = 0x2e000000000000ull; r_tw = 46u; r_hl = 0x2e0000ull; r_7a = 0x2e00000000ull; r_1y = 0x2e000000000000ull; r_if = 46u; r_uk = 0x2e0000ull; r_3d = 0x2e00000000ull; r_6w = 0x2e000000000000ull; r_93 = 46u; r_gg = 0x2e0000ull; r_zt = 0x2e00000000ull; r_m6 = 0x2e000000000000ull; r_jc = 46u; r_vw = 0x2e0000ull; r_xz = 0x2e00000000ull; goto l_std_tz; }
    t_6o = (u64)((u64)ld8((a_4 + 1)) << 8ull);
    if (!(a_5 > 2ull)) { r_zo = 0x2e000000ull; r_lj = 11776ull; r_42 = 0x2e00000000000000ull; r_5r = 0x2e0000000000ull; r_pa = 0x2e000000ull; r_7p = 11776ull; r_o8 = 0x2e00000000000000ull; r_bf = 0x2e0000000000ull; r_bp = 0x2e000000ull; r_m3 = 11776ull; r_1s = 0x2e00000000000000ull; r_2r = 0x2e0000000000ull; r_pk = 0x2e000000ull; r_wb = 11776ull; r_3n = 0x2e00000000000000ull; r_bo = 0x2e0000000000ull; r_zs = 0x2e000000ull; r_v3 = 11776ull; r_ua = 0x2e00000000000000ull; r_v9 = 0x2e0000000000ull; r_ps = 0x2e000000ull; r_gi = 11776ull; r_3f = 0x2e00000000000000ull; r_pn = 0x2e0000000000ull; r_je = 0x2e000000ull; r_jk = 11776ull; r_l0 = 0x2e00000000000000ull; r_qi = 0x2e0000000000ull; r_vv = 0x2e000000ull; r_sr = 11776ull; r_qg = 0x2e00000000000000ull; r_q7 = 0x2e0000000000ull; r_58 = 0x2e000000ull; r_6f = 11776ull; r_w2 = 0x2e00000000000000ull; r_mm = 0x2e0000000000ull; r_0r = 0x2e000000ull; r_75 = t_6o; r_fn = r_pe; r_i4 = 0x2e0000ull; r_1t = 0x2e00000000ull; r_a1 = 0x2e000000000000ull; r_cc = 46u; r_5r_1 = 0x2e0000ull; r_og = 0x2e00000000ull; r_7z = 0x2e000000000000ull; r_m1 = 46u; r_nq = 0x2e0000ull; r_7w = 0x2e00000000ull; r_w5 = 0x2e000000000000ull; r_0i = 46u; r_x9 = 0x2e0000ull; r_vm = 0x2e00000000ull; r_4a = 0x2e000000000000ull; r_75_1 = 46u; r_9s = 0x2e0000ull; r_co = 0x2e00000000ull; r_0c = 0x2e000000000000ull; r_9q = 46u; r_zy = 0x2e0000ull; r_ph = 0x2e00000000ull; r_hk = 0x2e000000000000ull; r_tw = 46u; r_hl = 0x2e0000ull; r_7a = 0x2e00000000ull; r_1y = 0x2e000000000000ull; r_if = 46u; r_uk = 0x2e0000ull; r_3d = 0x2e00000000ull; r_6w = 0x2e000000000000ull; r_93 = 46u; r_gg = 0x2e0000ull; r_zt = 0x2e00000000ull; r_m6 = 0x2e000000000000ull; r_jc = 46u; r_vw = 0x2e0000ull; r_xz = 0x2e00000000ull; goto l_std_tz; }
    t_pt = (u64)((u64)ld8((a_4 + 2)) << 16ull);
    if (a_5 == 3ull) { r_zo = 0x2e000000ull; r_lj = 11776ull; r_42 = 0x2e00000000000000ull; r_5r = 0x2e0000000000ull; r_pa = 0x2e000000ull; r_7p = 11776ull; r_o8 = 0x2e00000000000000ull; r_bf = 0x2e0000000000ull; r_bp = 0x2e000000ull; r_m3 = 11776ull; r_1s = 0x2e00000000000000ull; r_2r = 0x2e0000000000ull; r_pk = 0x2e000000ull; r_wb = 11776ull; r_3n = 0x2e00000000000000ull; r_bo = 0x2e0000000000ull; r_zs = 0x2e000000ull; r_v3 = 11776ull; r_ua = 0x2e00000000000000ull; r_v9 = 0x2e0000000000ull; r_ps = 0x2e000000ull; r_gi = 11776ull; r_3f = 0x2e00000000000000ull; r_pn = 0x2e0000000000ull; r_je = 0x2e000000ull; r_jk = 11776ull; r_l0 = 0x2e00000000000000ull; r_qi = 0x2e0000000000ull; r_vv = 0x2e000000ull; r_sr = 11776ull; r_qg = 0x2e00000000000000ull; r_q7 = 0x2e0000000000ull; r_58 = 0x2e000000ull; r_6f = 11776ull; r_w2 = 0x2e00000000000000ull; r_mm = 0x2e0000000000ull; r_0r = 0x2e000000ull; r_75 = t_6o; r_fn = r_pe; r_i4 = t_pt; r_1t = 0x2e00000000ull; r_a1 = 0x2e000000000000ull; r_cc = 46u; r_5r_1 = 0x2e0000ull; r_og = 0x2e00000000ull; r_7z = 0x2e000000000000ull; r_m1 = 46u; r_nq = 0x2e0000ull; r_7w = 0x2e00000000ull; r_w5 = 0x2e000000000000ull; r_0i = 46u; r_x9 = 0x2e0000ull; r_vm = 0x2e00000000ull; r_4a = 0x2e000000000000ull; r_75_1 = 46u; r_9s = 0x2e0000ull; r_co = 0x2e00000000ull; r_0c = 0x2e000000000000ull; r_9q = 46u; r_zy = 0x2e0000ull; r_ph = 0x2e00000000ull; r_hk = 0x2e000000000000ull; r_tw = 46u; r_hl = 0x2e0000ull; r_7a = 0x2e00000000ull; r_1y = 0x2e000000000000ull; r_if = 46u; r_uk = 0x2e0000ull; r_3d = 0x2e00000000ull; r_6w = 0x2e000000000000ull; r_93 = 46u; r_gg = 0x2e0000ull; r_zt = 0x2e00000000ull; r_m6 = 0x2e000000000000ull; r_jc = 46u; r_vw = 0x2e0000ull; r_xz = 0x2e00000000ull; goto l_std_tz; }
    t_ed = (u64)((u64)ld8((a_4 + 3)) << 24ull);
    if (!(a_5 > 4ull)) { r_zo = 0x2e000000ull; r_lj = 11776ull; r_42 = 0x2e00000000000000ull; r_5r = 0x2e0000000000ull; r_pa = 0x2e000000ull; r_7p = 11776ull; r_o8 = 0x2e00000000000000ull; r_bf = 0x2e0000000000ull; r_bp = 0x2e000000ull; r_m3 = 11776ull; r_1s = 0x2e00000000000000ull; r_2r = 0x2e0000000000ull; r_pk = 0x2e000000ull; r_wb = 11776ull; r_3n = 0x2e00000000000000ull; r_bo = 0x2e0000000000ull; r_zs = 0x2e000000ull; r_v3 = 11776ull; r_ua = 0x2e00000000000000ull; r_v9 = 0x2e0000000000ull; r_ps = 0x2e000000ull; r_gi = 11776ull; r_3f = 0x2e00000000000000ull; r_pn = 0x2e0000000000ull; r_je = 0x2e000000ull; r_jk = 11776ull; r_l0 = 0x2e00000000000000ull; r_qi = 0x2e0000000000ull; r_vv = 0x2e000000ull; r_sr = 11776ull; r_qg = 0x2e00000000000000ull; r_q7 = 0x2e0000000000ull; r_58 = 0x2e000000ull; r_6f = 11776ull; r_w2 = 0x2e00000000000000ull; r_mm = 0x2e0000000000ull; r_0r = t_ed; r_75 = t_6o; r_fn = r_pe; r_i4 = t_pt; r_1t = 0x2e00000000ull; r_a1 = 0x2e000000000000ull; r_cc = 46u; r_5r_1 = 0x2e0000ull; r_og = 0x2e00000000ull; r_7z = 0x2e000000000000ull; r_m1 = 46u; r_nq = 0x2e0000ull; r_7w = 0x2e00000000ull; r_w5 = 0x2e000000000000ull; r_0i = 46u; r_x9 = 0x2e0000ull; r_vm = 0x2e00000000ull; r_4a = 0x2e000000000000ull; r_75_1 = 46u; r_9s = 0x2e0000ull; r_co = 0x2e00000000ull; r_0c = 0x2e000000000000ull; r_9q = 46u; r_zy = 0x2e0000ull; r_ph = 0x2e00000000ull; r_hk = 0x2e000000000000ull; r_tw = 46u; r_hl = 0x2e0000ull; r_7a = 0x2e00000000ull; r_1y = 0x2e000000000000ull; r_if = 46u; r_uk = 0x2e0000ull; r_3d = 0x2e00000000ull; r_6w = 0x2e000000000000ull; r_93 = 46u; r_gg = 0x2e0000ull; r_zt = 0x2e00000000ull; r_m6 = 0x2e000000000000ull; r_jc = 46u; r_vw = 0x2e0000ull; r_xz = 0x2e00000000ull; goto l_std_tz; }
    t_ni = (u64)((u64)ld8((a_4 + 4)) << 32ull);
    if (a_5 == 5ull) { r_zo = 0x2e000000ull; r_lj = 11776ull; r_42 = 0x2e00000000000000ull; r_5r = 0x2e0000000000ull; r_pa = 0x2e000000ull; r_7p = 11776ull; r_o8 = 0x2e00000000000000ull; r_bf = 0x2e0000000000ull; r_bp = 0x2e000000ull; r_m3 = 11776ull; r_1s = 0x2e00000000000000ull; r_2r = 0x2e0000000000ull; r_pk = 0x2e000000ull; r_wb = 11776ull; r_3n = 0x2e00000000000000ull; r_bo = 0x2e0000000000ull; r_zs = 0x2e000000ull; r_v3 = 11776ull; r_ua = 0x2e00000000000000ull; r_v9 = 0x2e0000000000ull; r_ps = 0x2e000000ull; r_gi = 11776ull; r_3f = 0x2e00000000000000ull; r_pn = 0x2e0000000000ull; r_je = 0x2e000000ull; r_jk = 11776ull; r_l0 = 0x2e00000000000000ull; r_qi = 0x2e0000000000ull; r_vv = 0x2e000000ull; r_sr = 11776ull; r_qg = 0x2e00000000000000ull; r_q7 = 0x2e0000000000ull; r_58 = 0x2e000000ull; r_6f = 11776ull; r_w2 = 0x2e00000000000000ull; r_mm = 0x2e0000000000ull; r_0r = t_ed; r_75 = t_6o; r_fn = r_pe; r_i4 = t_pt; r_1t = t_ni; r_a1 = 0x2e000000000000ull; r_cc = 46u; r_5r_1 = 0x2e0000ull; r_og = 0x2e00000000ull; r_7z = 0x2e000000000000ull; r_m1 = 46u; r_nq = 0x2e0000ull; r_7w = 0x2e00000000ull; r_w5 = 0x2e000000000000ull; r_0i = 46u; r_x9 = 0x2e0000ull; r_vm = 0x2e00000000ull; r_4a = 0x2e000000000000ull; r_75_1 = 46u; r_9s = 0x2e0000ull; r_co = 0x2e00000000ull; r_0c = 0x2e000000000000ull; r_9q = 46u; r_zy = 0x2e0000ull; r_ph = 0x2e00000000ull; r_hk = 0x2e000000000000ull; r_tw = 46u; r_hl = 0x2e0000ull; r_7a = 0x2e00000000ull; r_1y = 0x2e000000000000ull; r_if = 46u; r_uk = 0x2e0000ull; r_3d = 0x2e00000000ull; r_6w = 0x2e000000000000ull; r_93 = 46u; r_gg = 0x2e0000ull; r_zt = 0x2e00000000ull; r_m6 = 0x2e000000000000ull; r_jc = 46u; r_vw = 0x2e0000ull; r_xz = 0x2e00000000ull; goto l_std_tz; }
    t_pq = (u64)((u64)ld8((a_4 + 5)) << 40ull);
    if (!(a_5 > 6ull)) { r_zo = 0x2e000000ull; r_lj = 11776ull; r_42 = 0x2e00000000000000ull; r_5r = 0x2e0000000000ull; r_pa = 0x2e000000ull; r_7p = 11776ull; r_o8 = 0x2e00000000000000ull; r_bf = 0x2e0000000000ull; r_bp = 0x2e000000ull; r_m3 = 11776ull; r_1s = 0x2e00000000000000ull; r_2r = 0x2e0000000000ull; r_pk = 0x2e000000ull; r_wb = 11776ull; r_3n = 0x2e00000000000000ull; r_bo = 0x2e0000000000ull; r_zs = 0x2e000000ull; r_v3 = 11776ull; r_ua = 0x2e00000000000000ull; r_v9 = 0x2e0000000000ull; r_ps = 0x2e000000ull; r_gi = 11776ull; r_3f = 0x2e00000000000000ull; r_pn = 0x2e0000000000ull; r_je = 0x2e000000ull; r_jk = 11776ull; r_l0 = 0x2e00000000000000ull; r_qi = 0x2e0000000000ull; r_vv = 0x2e000000ull; r_sr = 11776ull; r_qg = 0x2e00000000000000ull; r_q7 = 0x2e0000000000ull; r_58 = 0x2e000000ull; r_6f = 11776ull; r_w2 = 0x2e00000000000000ull; r_mm = t_pq; r_0r = t_ed; r_75 = t_6o; r_fn = r_pe; r_i4 = t_pt; r_1t = t_ni; r_a1 = 0x2e000000000000ull; r_cc = 46u; r_5r_1 = 0x2e0000ull; r_og = 0x2e00000000ull; r_7z = 0x2e000000000000ull; r_m1 = 46u; r_nq = 0x2e0000ull; r_7w = 0x2e00000000ull; r_w5 = 0x2e000000000000ull; r_0i = 46u; r_x9 = 0x2e0000ull; r_vm = 0x2e00000000ull; r_4a = 0x2e000000000000ull; r_75_1 = 46u; r_9s = 0x2e0000ull; r_co = 0x2e00000000ull; r_0c = 0x2e000000000000ull; r_9q = 46u; r_zy = 0x2e0000ull; r_ph = 0x2e00000000ull; r_hk = 0x2e000000000000ull; r_tw = 46u; r_hl = 0x2e0000ull; r_7a = 0x2e00000000ull; r_1y = 0x2e000000000000ull; r_if = 46u; r_uk = 0x2e0000ull; r_3d = 0x2e00000000ull; r_6w = 0x2e000000000000ull; r_93 = 46u; r_gg = 0x2e0000ull; r_zt = 0x2e00000000ull; r_m6 = 0x2e000000000000ull; r_jc = 46u; r_vw = 0x2e0000ull; r_xz = 0x2e00000000ull; goto l_std_tz; }
    t_bt = (u64)((u64)ld8((a_4 + 6)) << 48ull);
    if (a_5 == 7ull) { r_zo = 0x2e000000ull; r_lj = 11776ull; r_42 = 0x2e00000000000000ull; r_5r = 0x2e0000000000ull; r_pa = 0x2e000000ull; r_7p = 11776ull; r_o8 = 0x2e00000000000000ull; r_bf = 0x2e0000000000ull; r_bp = 0x2e000000ull; r_m3 = 11776ull; r_1s = 0x2e00000000000000ull; r_2r = 0x2e0000000000ull; r_pk = 0x2e000000ull; r_wb = 11776ull; r_3n = 0x2e00000000000000ull; r_bo = 0x2e0000000000ull; r_zs = 0x2e000000ull; r_v3 = 11776ull; r_ua = 0x2e00000000000000ull; r_v9 = 0x2e0000000000ull; r_ps = 0x2e000000ull; r_gi = 11776ull; r_3f = 0x2e00000000000000ull; r_pn = 0x2e0000000000ull; r_je = 0x2e000000ull; r_jk = 11776ull; r_l0 = 0x2e00000000000000ull; r_qi = 0x2e0000000000ull; r_vv = 0x2e000000ull; r_sr = 11776ull; r_qg = 0x2e00000000000000ull; r_q7 = 0x2e0000000000ull; r_58 = 0x2e000000ull; r_6f = 11776ull; r_w2 = 0x2e00000000000000ull; r_mm = t_pq; r_0r = t_ed; r_75 = t_6o; r_fn = r_pe; r_i4 = t_pt; r_1t = t_ni; r_a1 = t_bt; r_cc = 46u; r_5r_1 = 0x2e0000ull; r_og = 0x2e00000000ull; r_7z = 0x2e000000000000ull; r_m1 = 46u; r_nq = 0x2e0000ull; r_7w = 0x2e00000000ull; r_w5 = 0x2e000000000000ull; r_0i = 46u; r_x9 = 0x2e0000ull; r_vm = 0x2e00000000ull; r_4a = 0x2e000000000000ull; r_75_1 = 46u; r_9s = 0x2e0000ull; r_co = 0x2e00000000ull; r_0c = 0x2e000000000000ull; r_9q = 46u; r_zy = 0x2e0000ull; r_ph = 0x2e00000000ull; r_hk = 0x2e000000000000ull; r_tw = 46u; r_hl = 0x2e0000ull; r_7a = 0x2e00000000ull; r_1y = 0x2e000000000000ull; r_if = 46u; r_uk = 0x2e0000ull; r_3d = 0x2e00000000ull; r_6w = 0x2e000000000000ull; r_93 = 46u; r_gg = 0x2e0000ull; r_zt = 0x2e00000000ull; r_m6 = 0x2e000000000000ull; r_jc = 46u; r_vw = 0x2e0000ull; r_xz = 0x2e00000000ull; goto l_std_tz; }
    t_1w = (u64)((u64)ld8((a_4 + 7)) << 56ull);
    if (!(a_5 > 8ull)) { r_zo = 0x2e000000ull; r_lj = 11776ull; r_42 = 0x2e00000000000000ull; r_5r = 0x2e0000000000ull; r_pa = 0x2e000000ull; r_7p = 11776ull; r_o8 = 0x2e00000000000000ull; r_bf = 0x2e0000000000ull; r_bp = 0x2e000000ull; r_m3 = 11776ull; r_1s = 0x2e00000000000000ull; r_2r = 0x2e0000000000ull; r_pk = 0x2e000000ull; r_wb = 11776ull; r_3n = 0x2e00000000000000ull; r_bo = 0x2e0000000000ull; r_zs = 0x2e000000ull; r_v3 = 11776ull; r_ua = 0x2e00000000000000ull; r_v9 = 0x2e0000000000ull; r_ps = 0x2e000000ull; r_gi = 11776ull; r_3f = 0x2e00000000000000ull; r_pn = 0x2e0000000000ull; r_je = 0x2e000000ull; r_jk = 11776ull; r_l0 = 0x2e00000000000000ull; r_qi = 0x2e0000000000ull; r_vv = 0x2e000000ull; r_sr = 11776ull; r_qg = 0x2e00000000000000ull; r_q7 = 0x2e0000000000ull; r_58 = 0x2e000000ull; r_6f = 11776ull; r_w2 = t_1w; r_mm = t_pq; r_0r = t_ed; r_75 = t_6o; r_fn = r_pe; r_i4 = t_pt; r_1t = t_ni; r_a1 = t_bt; r_cc = 46u; r_5r_1 = 0x2e0000ull; r_og = 0x2e00000000ull; r_7z = 0x2e000000000000ull; r_m1 = 46u; r_nq = 0x2e0000ull; r_7w = 0x2e00000000ull; r_w5 = 0x2e000000000000ull; r_0i = 46u; r_x9 = 0x2e0000ull; r_vm = 0x2e00000000ull; r_4a = 0x2e000000000000ull; r_75_1 = 46u; r_9s = 0x2e0000ull; r_co = 0x2e00000000ull; r_0c = 0x2e000000000000ull; r_9q = 46u; r_zy = 0x2e0000ull; r_ph = 0x2e00000000ull; r_hk = 0x2e000000000000ull; r_tw = 46u; r_hl = 0x2e0000ull; r_7a = 0x2e00000000ull; r_1y = 0x2e000000000000ull; r_if = 46u; r_uk = 0x2e0000ull; r_3d = 0x2e00000000ull; r_6w = 0x2e000000000000ull; r_93 = 46u; r_gg = 0x2e0000ull; r_zt = 0x2e00000000ull; r_m6 = 0x2e000000000000ull; r_jc = 46u; r_vw = 0x2e0000ull; r_xz = 0x2e00000000ull; goto l_std_tz; }
    r_47 = ld8((a_4 + 8));
    if (a_5 == 9ull) { r_zo = 0x2e000000ull; r_lj = 11776ull; r_42 = 0x2e00000000000000ull; r_5r = 0x2e0000000000ull; r_pa = 0x2e000000ull; r_7p = 11776ull; r_o8 = 0x2e00000000000000ull; r_bf = 0x2e0000000000ull; r_bp = 0x2e000000ull; r_m3 = 11776ull; r_1s = 0x2e00000000000000ull; r_2r = 0x2e0000000000ull; r_pk = 0x2e000000ull; r_wb = 11776ull; r_3n = 0x2e00000000000000ull; r_bo = 0x2e0000000000ull; r_zs = 0x2e000000ull; r_v3 = 11776ull; r_ua = 0x2e00000000000000ull; r_v9 = 0x2e0000000000ull; r_ps = 0x2e000000ull; r_gi = 11776ull; r_3f = 0x2e00000000000000ull; r_pn = 0x2e0000000000ull; r_je = 0x2e000000ull; r_jk = 11776ull; r_l0 = 0x2e00000000000000ull; r_qi = 0x2e0000000000ull; r_vv = 0x2e000000ull; r_sr = 11776ull; r_qg = 0x2e00000000000000ull; r_q7 = 0x2e0000000000ull; r_58 = 0x2e000000ull; r_6f = 11776ull; r_w2 = t_1w; r_mm = t_pq; r_0r = t_ed; r_75 = t_6o; r_fn = r_pe; r_i4 = t_pt; r_1t = t_ni; r_a1 = t_bt; r_cc = r_47; r_5r_1 = 0x2e0000ull; r_og = 0x2e00000000ull; r_7z = 0x2e000000000000ull; r_m1 = 46u; r_nq = 0x2e0000ull; r_7w = 0x2e00000000ull; r_w5 = 0x2e000000000000ull; r_0i = 46u; r_x9 = 0x2e0000ull; r_vm = 0x2e00000000ull; r_4a = 0x2e000000000000ull; r_75_1 = 46u; r_9s = 0x2e0000ull; r_co = 0x2e00000000ull; r_0c = 0x2e000000000000ull; r_9q = 46u; r_zy = 0x2e0000ull; r_ph = 0x2e00000000ull; r_hk = 0x2e000000000000ull; r_tw = 46u; r_hl = 0x2e0000ull; r_7a = 0x2e00000000ull; r_1y = 0x2e000000000000ull; r_if = 46u; r_uk = 0x2e0000ull; r_3d = 0x2e00000000ull; r_6w = 0x2e000000000000ull; r_93 = 46u; r_gg = 0x2e0000ull; r_zt = 0x2e00000000ull; r_m6 = 0x2e000000000000ull; r_jc = 46u; r_vw = 0x2e0000ull; r_xz = 0x2e00000000ull; goto l_std_tz; }
    t_6o_1 = (u64)((u64)ld8((a_4 + 9)) << 8ull);
    if (!(a_5 > 10ull)) { r_zo = 0x2e000000ull; r_lj = 11776ull; r_42 = 0x2e00000000000000ull; r_5r = 0x2e0000000000ull; r_pa = 0x2e000000ull; r_7p = 11776ull; r_o8 = 0x2e00000000000000ull; r_bf = 0x2e0000000000ull; r_bp = 0x2e000000ull; r_m3 = 11776ull; r_1s = 0x2e00000000000000ull; r_2r = 0x2e0000000000ull; r_pk = 0x2e000000ull; r_wb = 11776ull; r_3n = 0x2e00000000000000ull; r_bo = 0x2e0000000000ull; r_zs = 0x2e000000ull; r_v3 = 11776ull; r_ua = 0x2e00000000000000ull; r_v9 = 0x2e0000000000ull; r_ps = 0x2e000000ull; r_gi = 11776ull; r_3f = 0x2e00000000000000ull; r_pn = 0x2e0000000000ull; r_je = 0x2e000000ull; r_jk = 11776ull; r_l0 = 0x2e00000000000000ull; r_qi = 0x2e0000000000ull; r_vv = 0x2e000000ull; r_sr = 11776ull; r_qg = 0x2e00000000000000ull; r_q7 = 0x2e0000000000ull; r_58 = 0x2e000000ull; r_6f = t_6o_1; r_w2 = t_1w; r_mm = t_pq; r_0r = t_ed; r_75 = t_6o; r_fn = r_pe; r_i4 = t_pt; r_1t = t_ni; r_a1 = t_bt; r_cc = r_47; r_5r_1 = 0x2e0000ull; r_og = 0x2e00000000ull; r_7z = 0x2e000000000000ull; r_m1 = 46u; r_nq = 0x2e0000ull; r_7w = 0x2e00000000ull; r_w5 = 0x2e000000000000ull; r_0i = 46u; r_x9 = 0x2e0000ull; r_vm = 0x2e00000000ull; r_4a = 0x2e000000000000ull; r_75_1 = 46u; r_9s = 0x2e0000ull; r_co = 0x2e00000000ull; r_0c = 0x2e000000000000ull; r_9q = 46u; r_zy = 0x2e0000ull; r_ph = 0x2e00000000ull; r_hk = 0x2e000000000000ull; r_tw = 46u; r_hl = 0x2e0000ull; r_7a = 0x2e00000000ull; r_1y = 0x2e000000000000ull; r_if = 46u; r_uk = 0x2e0000ull; r_3d = 0x2e00000000ull; r_6w = 0x2e000000000000ull; r_93 = 46u; r_gg = 0x2e0000ull; r_zt = 0x2e00000000ull; r_m6 = 0x2e000000000000ull; r_jc = 46u; r_vw = 0x2e0000ull; r_xz = 0x2e00000000ull; goto l_std_tz; }
    t_pt_1 = (u64)((u64)ld8((a_4 + 10)) << 16ull);
    if (a_5 == 11ull) { r_zo = 0x2e000000ull; r_lj = 11776ull; r_42 = 0x2e00000000000000ull; r_5r = 0x2e0000000000ull; r_pa = 0x2e000000ull; r_7p = 11776ull; r_o8 = 0x2e00000000000000ull; r_bf = 0x2e0000000000ull; r_bp = 0x2e000000ull; r_m3 = 11776ull; r_1s = 0x2e00000000000000ull; r_2r = 0x2e0000000000ull; r_pk = 0x2e000000ull; r_wb = 11776ull; r_3n = 0x2e00000000000000ull; r_bo = 0x2e0000000000ull; r_zs = 0x2e000000ull; r_v3 = 11776ull; r_ua = 0x2e00000000000000ull; r_v9 = 0x2e0000000000ull; r_ps = 0x2e000000ull; r_gi = 11776ull; r_3f = 0x2e00000000000000ull; r_pn = 0x2e0000000000ull; r_je = 0x2e000000ull; r_jk = 11776ull; r_l0 = 0x2e00000000000000ull; r_qi = 0x2e0000000000ull; r_vv = 0x2e000000ull; r_sr = 11776ull; r_qg = 0x2e00000000000000ull; r_q7 = 0x2e0000000000ull; r_58 = 0x2e000000ull; r_6f = t_6o_1; r_w2 = t_1w; r_mm = t_pq; r_0r = t_ed; r_75 = t_6o; r_fn = r_pe; r_i4 = t_pt; r_1t = t_ni; r_a1 = t_bt; r_cc = r_47; r_5r_1 = t_pt_1; r_og = 0x2e00000000ull; r_7z = 0x2e000000000000ull; r_m1 = 46u; r_nq = 0x2e0000ull; r_7w = 0x2e00000000ull; r_w5 = 0x2e000000000000ull; r_0i = 46u; r_x9 = 0x2e0000ull; r_vm = 0x2e00000000ull; r_4a = 0x2e000000000000ull; r_75_1 = 46u; r_9s = 0x2e0000ull; r_co = 0x2e00000000ull; r_0c = 0x2e000000000000ull; r_9q = 46u; r_zy = 0x2e0000ull; r_ph = 0x2e00000000ull; r_hk = 0x2e000000000000ull; r_tw = 46u; r_hl = 0x2e0000ull; r_7a = 0x2e00000000ull; r_1y = 0x2e000000000000ull; r_if = 46u; r_uk = 0x2e0000ull; r_3d = 0x2e00000000ull; r_6w = 0x2e000000000000ull; r_93 = 46u; r_gg = 0x2e0000ull; r_zt = 0x2e00000000ull; r_m6 = 0x2e000000000000ull; r_jc = 46u; r_vw = 0x2e0000ull; r_xz = 0x2e00000000ull; goto l_std_tz; }
    t_ed_1 = (u64)((u64)ld8((a_4 + 11)) << 24ull);
    if (!(a_5 > 12ull)) { r_zo = 0x2e000000ull; r_lj = 11776ull; r_42 = 0x2e00000000000000ull; r_5r = 0x2e0000000000ull; r_pa = 0x2e000000ull; r_7p = 11776ull; r_o8 = 0x2e00000000000000ull; r_bf = 0x2e0000000000ull; r_bp = 0x2e000000ull; r_m3 = 11776ull; r_1s = 0x2e00000000000000ull; r_2r = 0x2e0000000000ull; r_pk = 0x2e000000ull; r_wb = 11776ull; r_3n = 0x2e00000000000000ull; r_bo = 0x2e0000000000ull; r_zs = 0x2e000000ull; r_v3 = 11776ull; r_ua = 0x2e00000000000000ull; r_v9 = 0x2e0000000000ull; r_ps = 0x2e000000ull; r_gi = 11776ull; r_3f = 0x2e00000000000000ull; r_pn = 0x2e0000000000ull; r_je = 0x2e000000ull; r_jk = 11776ull; r_l0 = 0x2e00000000000000ull; r_qi = 0x2e0000000000ull; r_vv = 0x2e000000ull; r_sr = 11776ull; r_qg = 0x2e00000000000000ull; r_q7 = 0x2e0000000000ull; r_58 = t_ed_1; r_6f = t_6o_1; r_w2 = t_1w; r_mm = t_pq; r_0r = t_ed; r_75 = t_6o; r_fn = r_pe; r_i4 = t_pt; r_1t = t_ni; r_a1 = t_bt; r_cc = r_47; r_5r_1 = t_pt_1; r_og = 0x2e00000000ull; r_7z = 0x2e000000000000ull; r_m1 = 46u; r_nq = 0x2e0000ull; r_7w = 0x2e00000000ull; r_w5 = 0x2e000000000000ull; r_0i = 46u; r_x9 = 0x2e0000ull; r_vm = 0x2e00000000ull; r_4a = 0x2e000000000000ull; r_75_1 = 46u; r_9s = 0x2e0000ull; r_co = 0x2e00000000ull; r_0c = 0x2e000000000000ull; r_9q = 46u; r_zy = 0x2e0000ull; r_ph = 0x2e00000000ull; r_hk = 0x2e000000000000ull; r_tw = 46u; r_hl = 0x2e0000ull; r_7a = 0x2e00000000ull; r_1y = 0x2e000000000000ull; r_if = 46u; r_uk = 0x2e0000ull; r_3d = 0x2e00000000ull; r_6w = 0x2e000000000000ull; r_93 = 46u; r_gg = 0x2e0000ull; r_zt = 0x2e00000000ull; r_m6 = 0x2e000000000000ull; r_jc = 46u; r_vw = 0x2e0000ull; r_xz = 0x2e00000000ull; goto l_std_tz; }
    t_ni_1 = (u64)((u64)ld8((a_4 + 12)) << 32ull);
    if (a_5 == 13ull) { r_zo = 0x2e000000ull; r_lj = 11776ull; r_42 = 0x2e00000000000000ull; r_5r = 0x2e0000000000ull; r_pa = 0x2e000000ull; r_7p = 11776ull; r_o8 = 0x2e00000000000000ull; r_bf = 0x2e0000000000ull; r_bp = 0x2e000000ull; r_m3 = 11776ull; r_1s = 0x2e00000000000000ull; r_2r = 0x2e0000000000ull; r_pk = 0x2e000000ull; r_wb = 11776ull; r_3n = 0x2e00000000000000ull; r_bo = 0x2e0000000000ull; r_zs = 0x2e000000ull; r_v3 = 11776ull; r_ua = 0x2e00000000000000ull; r_v9 = 0x2e0000000000ull; r_ps = 0x2e000000ull; r_gi = 11776ull; r_3f = 0x2e00000000000000ull; r_pn = 0x2e0000000000ull; r_je = 0x2e000000ull; r_jk = 11776ull; r_l0 = 0x2e00000000000000ull; r_qi = 0x2e0000000000ull; r_vv = 0x2e000000ull; r_sr = 11776ull; r_qg = 0x2e00000000000000ull; r_q7 = 0x2e0000000000ull; r_58 = t_ed_1; r_6f = t_6o_1; r_w2 = t_1w; r_mm = t_pq; r_0r = t_ed; r_75 = t_6o; r_fn = r_pe; r_i4 = t_pt; r_1t = t_ni; r_a1 = t_bt; r_cc = r_47; r_5r_1 = t_pt_1; r_og = t_ni_1; r_7z = 0x2e000000000000ull; r_m1 = 46u; r_nq = 0x2e0000ull; r_7w = 0x2e00000000ull; r_w5 = 0x2e000000000000ull; r_0i = 46u; r_x9 = 0x2e0000ull; r_vm = 0x2e00000000ull; r_4a = 0x2e000000000000ull; r_75_1 = 46u; r_9s = 0x2e0000ull; r_co = 0x2e00000000ull; r_0c = 0x2e000000000000ull; r_9q = 46u; r_zy = 0x2e0000ull; r_ph = 0x2e00000000ull; r_hk = 0x2e000000000000ull; r_tw = 46u; r_hl = 0x2e0000ull; r_7a = 0x2e00000000ull; r_1y = 0x2e000000000000ull; r_if = 46u; r_uk = 0x2e0000ull; r_3d = 0x2e00000000ull; r_6w = 0x2e000000000000ull; r_93 = 46u; r_gg = 0x2e0000ull; r_zt = 0x2e00000000ull; r_m6 = 0x2e000000000000ull; r_jc = 46u; r_vw = 0x2e0000ull; r_xz = 0x2e00000000ull; goto l_std_tz; }
    t_pq_1 = (u64)((u64)ld8((a_4 + 13)) << 40ull);
    if (!(a_5 > 14ull)) { r_zo = 0x2e000000ull; r_lj = 11776ull; r_42 = 0x2e00000000000000ull; r_5r = 0x2e0000000000ull; r_pa = 0x2e000000ull; r_7p = 11776ull; r_o8 = 0x2e00000000000000ull; r_bf = 0x2e0000000000ull; r_bp = 0x2e000000ull; r_m3 = 11776ull; r_1s = 0x2e00000000000000ull; r_2r = 0x2e0000000000ull; r_pk = 0x2e000000ull; r_wb = 11776ull; r_3n = 0x2e00000000000000ull; r_bo = 0x2e0000000000ull; r_zs = 0x2e000000ull; r_v3 = 11776ull; r_ua = 0x2e00000000000000ull; r_v9 = 0x2e0000000000ull; r_ps = 0x2e000000ull; r_gi = 11776ull; r_3f = 0x2e00000000000000ull; r_pn = 0x2e0000000000ull; r_je = 0x2e000000ull; r_jk = 11776ull; r_l0 = 0x2e00000000000000ull; r_qi = 0x2e0000000000ull; r_vv = 0x2e000000ull; r_sr = 11776ull; r_qg = 0x2e00000000000000ull; r_q7 = t_pq_1; r_58 = t_ed_1; r_6f = t_6o_1; r_w2 = t_1w; r_mm = t_pq; r_0r = t_ed; r_75 = t_6o; r_fn = r_pe; r_i4 = t_pt; r_1t = t_ni; r_a1 = t_bt; r_cc = r_47; r_5r_1 = t_pt_1; r_og = t_ni_1; r_7z = 0x2e000000000000ull; r_m1 = 46u; r_nq = 0x2e0000ull; r_7w = 0x2e00000000ull; r_w5 = 0x2e000000000000ull; r_0i = 46u; r_x9 = 0x2e0000ull; r_vm = 0x2e00000000ull; r_4a = 0x2e000000000000ull; r_75_1 = 46u; r_9s = 0x2e0000ull; r_co = 0x2e00000000ull; r_0c = 0x2e000000000000ull; r_9q = 46u; r_zy = 0x2e0000ull; r_ph = 0x2e00000000ull; r_hk = 0x2e000000000000ull; r_tw = 46u; r_hl = 0x2e0000ull; r_7a = 0x2e00000000ull; r_1y = 0x2e000000000000ull; r_if = 46u; r_uk = 0x2e0000ull; r_3d = 0x2e00000000ull; r_6w = 0x2e000000000000ull; r_93 = 46u; r_gg = 0x2e0000ull; r_zt = 0x2e00000000ull; r_m6 = 0x2e000000000000ull; r_jc = 46u; r_vw = 0x2e0000ull; r_xz = 0x2e00000000ull; goto l_std_tz; }
    t_bt_1 = (u64)((u64)ld8((a_4 + 14)) << 48ull);
    if (a_5 == 15ull) { r_zo = 0x2e000000ull; r_lj = 11776ull; r_42 = 0x2e00000000000000ull; r_5r = 0x2e0000000000ull; r_pa = 0x2e000000ull; r_7p = 11776ull; r_o8 = 0x2e00000000000000ull; r_bf = 0x2e0000000000ull; r_bp = 0x2e000000ull; r_m3 = 11776ull; r_1s = 0x2e00000000000000ull; r_2r = 0x2e0000000000ull; r_pk = 0x2e000000ull; r_wb = 11776ull; r_3n = 0x2e00000000000000ull; r_bo = 0x2e0000000000ull; r_zs = 0x2e000000ull; r_v3 = 11776ull; r_ua = 0x2e00000000000000ull; r_v9 = 0x2e0000000000ull; r_ps = 0x2e000000ull; r_gi = 11776ull; r_3f = 0x2e00000000000000ull; r_pn = 0x2e0000000000ull; r_je = 0x2e000000ull; r_jk = 11776ull; r_l0 = 0x2e00000000000000ull; r_qi = 0x2e0000000000ull; r_vv = 0x2e000000ull; r_sr = 11776ull; r_qg = 0x2e00000000000000ull; r_q7 = t_pq_1; r_58 = t_ed_1; r_6f = t_6o_1; r_w2 = t_1w; r_mm = t_pq; r_0r = t_ed; r_75 = t_6o; r_fn = r_pe; r_i4 = t_pt; r_1t = t_ni; r_a1 = t_bt; r_cc = r_47; r_5r_1 = t_pt_1; r_og = t_ni_1; r_7z = t_bt_1; r_m1 = 46u; r_nq = 0x2e0000ull; r_7w = 0x2e00000000ull; r_w5 = 0x2e000000000000ull; r_0i = 46u; r_x9 = 0x2e0000ull; r_vm = 0x2e00000000ull; r_4a = 0x2e000000000000ull; r_75_1 = 46u; r_9s = 0x2e0000ull; r_co = 0x2e00000000ull; r_0c = 0x2e000000000000ull; r_9q = 46u; r_zy = 0x2e0000ull; r_ph = 0x2e00000000ull; r_hk = 0x2e000000000000ull; r_tw = 46u; r_hl = 0x2e0000ull; r_7a = 0x2e00000000ull; r_1y = 0x2e000000000000ull; r_if = 46u; r_uk = 0x2e0000ull; r_3d = 0x2e00000000ull; r_6w = 0x2e000000000000ull; r_93 = 46u; r_gg = 0x2e0000ull; r_zt = 0x2e00000000ull; r_m6 = 0x2e000000000000ull; r_jc = 46u; r_vw = 0x2e0000ull; r_xz = 0x2e00000000ull; goto l_std_tz; }
    t_1w_1 = (u64)((u64)ld8((a_4 + 15)) << 56ull);
    if (!(a_5 > 16ull)) { r_zo = 0x2e000000ull; r_lj = 11776ull; r_42 = 0x2e00000000000000ull; r_5r = 0x2e0000000000ull; r_pa = 0x2e000000ull; r_7p = 11776ull; r_o8 = 0x2e00000000000000ull; r_bf = 0x2e0000000000ull; r_bp = 0x2e000000ull; r_m3 = 11776ull; r_1s = 0x2e00000000000000ull; r_2r = 0x2e0000000000ull; r_pk = 0x2e000000ull; r_wb = 11776ull; r_3n = 0x2e00000000000000ull; r_bo = 0x2e0000000000ull; r_zs = 0x2e000000ull; r_v3 = 11776ull; r_ua = 0x2e00000000000000ull; r_v9 = 0x2e0000000000ull; r_ps = 0x2e000000ull; r_gi = 11776ull; r_3f = 0x2e00000000000000ull; r_pn = 0x2e0000000000ull; r_je = 0x2e000000ull; r_jk = 11776ull; r_l0 = 0x2e00000000000000ull; r_qi = 0x2e0000000000ull; r_vv = 0x2e000000ull; r_sr = 11776ull; r_qg = t_1w_1; r_q7 = t_pq_1; r_58 = t_ed_1; r_6f = t_6o_1; r_w2 = t_1w; r_mm = t_pq; r_0r = t_ed; r_75 = t_6o; r_fn = r_pe; r_i4 = t_pt; r_1t = t_ni; r_a1 = t_bt; r_cc = r_47; r_5r_1 = t_pt_1; r_og = t_ni_1; r_7z = t_bt_1; r_m1 = 46u; r_nq = 0x2e0000ull; r_7w = 0x2e00000000ull; r_w5 = 0x2e000000000000ull; r_0i = 46u; r_x9 = 0x2e0000ull; r_vm = 0x2e00000000ull; r_4a = 0x2e000000000000ull; r_75_1 = 46u; r_9s = 0x2e0000ull; r_co = 0x2e00000000ull; r_0c = 0x2e000000000000ull; r_9q = 46u; r_zy = 0x2e0000ull; r_ph = 0x2e00000000ull; r_hk = 0x2e000000000000ull; r_tw = 46u; r_hl = 0x2e0000ull; r_7a = 0x2e00000000ull; r_1y = 0x2e000000000000ull; r_if = 46u; r_uk = 0x2e0000ull; r_3d = 0x2e00000000ull; r_6w = 0x2e000000000000ull; r_93 = 46u; r_gg = 0x2e0000ull; r_zt = 0x2e00000000ull; r_m6 = 0x2e000000000000ull; r_jc = 46u; r_vw = 0x2e0000ull; r_xz = 0x2e00000000ull; goto l_std_tz; }
    r_47_1 = ld8((a_4 + 16));
    if (a_5 == 17ull) { r_zo = 0x2e000000ull; r_lj = 11776ull; r_42 = 0x2e00000000000000ull; r_5r = 0x2e0000000000ull; r_pa = 0x2e000000ull; r_7p = 11776ull; r_o8 = 0x2e00000000000000ull; r_bf = 0x2e0000000000ull; r_bp = 0x2e000000ull; r_m3 = 11776ull; r_1s = 0x2e00000000000000ull; r_2r = 0x2e0000000000ull; r_pk = 0x2e000000ull; r_wb = 11776ull; r_3n = 0x2e00000000000000ull; r_bo = 0x2e0000000000ull; r_zs = 0x2e000000ull; r_v3 = 11776ull; r_ua = 0x2e00000000000000ull; r_v9 = 0x2e0000000000ull; r_ps = 0x2e000000ull; r_gi = 11776ull; r_3f = 0x2e00000000000000ull; r_pn = 0x2e0000000000ull; r_je = 0x2e000000ull; r_jk = 11776ull; r_l0 = 0x2e00000000000000ull; r_qi = 0x2e0000000000ull; r_vv = 0x2e000000ull; r_sr = 11776ull; r_qg = t_1w_1; r_q7 = t_pq_1; r_58 = t_ed_1; r_6f = t_6o_1; r_w2 = t_1w; r_mm = t_pq; r_0r = t_ed; r_75 = t_6o; r_fn = r_pe; r_i4 = t_pt; r_1t = t_ni; r_a1 = t_bt; r_cc = r_47; r_5r_1 = t_pt_1; r_og = t_ni_1; r_7z = t_bt_1; r_m1 = r_47_1; r_nq = 0x2e0000ull; r_7w = 0x2e00000000ull; r_w5 = 0x2e000000000000ull; r_0i = 46u; r_x9 = 0x2e0000ull; r_vm = 0x2e00000000ull; r_4a = 0x2e000000000000ull; r_75_1 = 46u; r_9s = 0x2e0000ull; r_co = 0x2e00000000ull; r_0c = 0x2e000000000000ull; r_9q = 46u; r_zy = 0x2e0000ull; r_ph = 0x2e00000000ull; r_hk = 0x2e000000000000ull; r_tw = 46u; r_hl = 0x2e0000ull; r_7a = 0x2e00000000ull; r_1y = 0x2e000000000000ull; r_if = 46u; r_uk = 0x2e0000ull; r_3d = 0x2e00000000ull; r_6w = 0x2e000000000000ull; r_93 = 46u; r_gg = 0x2e0000ull; r_zt = 0x2e00000000ull; r_m6 = 0x2e000000000000ull; r_jc = 46u; r_vw = 0x2e0000ull; r_xz = 0x2e00000000ull; goto l_std_tz; }
    t_6o_2 = (u64)((u64)ld8((a_4 + 17)) << 8ull);
    if (!(a_5 > 18ull)) { r_zo = 0x2e000000ull; r_lj = 11776ull; r_42 = 0x2e00000000000000ull; r_5r = 0x2e0000000000ull; r_pa = 0x2e000000ull; r_7p = 11776ull; r_o8 = 0x2e00000000000000ull; r_bf = 0x2e0000000000ull; r_bp = 0x2e000000ull; r_m3 = 11776ull; r_1s = 0x2e00000000000000ull; r_2r = 0x2e0000000000ull; r_pk = 0x2e000000ull; r_wb = 11776ull; r_3n = 0x2e00000000000000ull; r_bo = 0x2e0000000000ull; r_zs = 0x2e000000ull; r_v3 = 11776ull; r_ua = 0x2e00000000000000ull; r_v9 = 0x2e0000000000ull; r_ps = 0x2e000000ull; r_gi = 11776ull; r_3f = 0x2e00000000000000ull; r_pn = 0x2e0000000000ull; r_je = 0x2e000000ull; r_jk = 11776ull; r_l0 = 0x2e00000000000000ull; r_qi = 0x2e0000000000ull; r_vv = 0x2e000000ull; r_sr = t_6o_2; r_qg = t_1w_1; r_q7 = t_pq_1; r_58 = t_ed_1; r_6f = t_6o_1; r_w2 = t_1w; r_mm = t_pq; r_0r = t_ed; r_75 = t_6o; r_fn = r_pe; r_i4 = t_pt; r_1t = t_ni; r_a1 = t_bt; r_cc = r_47; r_5r_1 = t_pt_1; r_og = t_ni_1; r_7z = t_bt_1; r_m1 = r_47_1; r_nq = 0x2e0000ull; r_7w = 0x2e00000000ull; r_w5 = 0x2e000000000000ull; r_0i = 46u; r_x9 = 0x2e0000ull; r_vm = 0x2e00000000ull; r_4a = 0x2e000000000000ull; r_75_1 = 46u; r_9s = 0x2e0000ull; r_co = 0x2e00000000ull; r_0c = 0x2e000000000000ull; r_9q = 46u; r_zy = 0x2e0000ull; r_ph = 0x2e00000000ull; r_hk = 0x2e000000000000ull; r_tw = 46u; r_hl = 0x2e0000ull; r_7a = 0x2e00000000ull; r_1y = 0x2e000000000000ull; r_if = 46u; r_uk = 0x2e0000ull; r_3d = 0x2e00000000ull; r_6w = 0x2e000000000000ull; r_93 = 46u; r_gg = 0x2e0000ull; r_zt = 0x2e00000000ull; r_m6 = 0x2e000000000000ull; r_jc = 46u; r_vw = 0x2e0000ull; r_xz = 0x2e00000000ull; goto l_std_tz; }
    t_pt_2 = (u64)((u64)ld8((a_4 + 18)) << 16ull);
    if (a_5 == 19ull) { r_zo = 0x2e000000ull; r_lj = 11776ull; r_42 = 0x2e00000000000000ull; r_5r = 0x2e0000000000ull; r_pa = 0x2e000000ull; r_7p = 11776ull; r_o8 = 0x2e00000000000000ull; r_bf = 0x2e0000000000ull; r_bp = 0x2e000000ull; r_m3 = 11776ull; r_1s = 0x2e00000000000000ull; r_2r = 0x2e0000000000ull; r_pk = 0x2e000000ull; r_wb = 11776ull; r_3n = 0x2e00000000000000ull; r_bo = 0x2e0000000000ull; r_zs = 0x2e000000ull; r_v3 = 11776ull; r_ua = 0x2e00000000000000ull; r_v9 = 0x2e0000000000ull; r_ps = 0x2e000000ull; r_gi = 11776ull; r_3f = 0x2e00000000000000ull; r_pn = 0x2e0000000000ull; r_je = 0x2e000000ull; r_jk = 11776ull; r_l0 = 0x2e00000000000000ull; r_qi = 0x2e0000000000ull; r_vv = 0x2e000000ull; r_sr = t_6o_2; r_qg = t_1w_1; r_q7 = t_pq_1; r_58 = t_ed_1; r_6f = t_6o_1; r_w2 = t_1w; r_mm = t_pq; r_0r = t_ed; r_75 = t_6o; r_fn = r_pe; r_i4 = t_pt; r_1t = t_ni; r_a1 = t_bt; r_cc = r_47; r_5r_1 = t_pt_1; r_og = t_ni_1; r_7z = t_bt_1; r_m1 = r_47_1; r_nq = t_pt_2; r_7w = 0x2e00000000ull; r_w5 = 0x2e000000000000ull; r_0i = 46u; r_x9 = 0x2e0000ull; r_vm = 0x2e00000000ull; r_4a = 0x2e000000000000ull; r_75_1 = 46u; r_9s = 0x2e0000ull; r_co = 0x2e00000000ull; r_0c = 0x2e000000000000ull; r_9q = 46u; r_zy = 0x2e0000ull; r_ph = 0x2e00000000ull; r_hk = 0x2e000000000000ull; r_tw = 46u; r_hl = 0x2e0000ull; r_7a = 0x2e00000000ull; r_1y = 0x2e000000000000ull; r_if = 46u; r_uk = 0x2e0000ull; r_3d = 0x2e00000000ull; r_6w = 0x2e000000000000ull; r_93 = 46u; r_gg = 0x2e0000ull; r_zt = 0x2e00000000ull; r_m6 = 0x2e000000000000ull; r_jc = 46u; r_vw = 0x2e0000ull; r_xz = 0x2e00000000ull; goto l_std_tz; }
    t_ed_2 = (u64)((u64)ld8((a_4 + 19)) << 24ull);
    if (!(a_5 > 20ull)) { r_zo = 0x2e000000ull; r_lj = 11776ull; r_42 = 0x2e00000000000000ull; r_5r = 0x2e0000000000ull; r_pa = 0x2e000000ull; r_7p = 11776ull; r_o8 = 0x2e00000000000000ull; r_bf = 0x2e0000000000ull; r_bp = 0x2e000000ull; r_m3 = 11776ull; r_1s = 0x2e00000000000000ull; r_2r = 0x2e0000000000ull; r_pk = 0x2e000000ull; r_wb = 11776ull; r_3n = 0x2e00000000000000ull; r_bo = 0x2e0000000000ull; r_zs = 0x2e000000ull; r_v3 = 11776ull; r_ua = 0x2e00000000000000ull; r_v9 = 0x2e0000000000ull; r_ps = 0x2e000000ull; r_gi = 11776ull; r_3f = 0x2e00000000000000ull; r_pn = 0x2e0000000000ull; r_je = 0x2e000000ull; r_jk = 11776ull; r_l0 = 0x2e00000000000000ull; r_qi = 0x2e0000000000ull; r_vv = t_ed_2; r_sr = t_6o_2; r_qg = t_1w_1; r_q7 = t_pq_1; r_58 = t_ed_1; r_6f = t_6o_1; r_w2 = t_1w; r_mm = t_pq; r_0r = t_ed; r_75 = t_6o; r_fn = r_pe; r_i4 = t_pt; r_1t = t_ni; r_a1 = t_bt; r_cc = r_47; r_5r_1 = t_pt_1; r_og = t_ni_1; r_7z = t_bt_1; r_m1 = r_47_1; r_nq = t_pt_2; r_7w = 0x2e00000000ull; r_w5 = 0x2e000000000000ull; r_0i = 46u; r_x9 = 0x2e0000ull; r_vm = 0x2e00000000ull; r_4a = 0x2e000000000000ull; r_75_1 = 46u; r_9s = 0x2e0000ull; r_co = 0x2e00000000ull; r_0c = 0x2e000000000000ull; r_9q = 46u; r_zy = 0x2e0000ull; r_ph = 0x2e00000000ull; r_hk = 0x2e000000000000ull; r_tw = 46u; r_hl = 0x2e0000ull; r_7a = 0x2e00000000ull; r_1y = 0x2e000000000000ull; r_if = 46u; r_uk = 0x2e0000ull; r_3d = 0x2e00000000ull; r_6w = 0x2e000000000000ull; r_93 = 46u; r_gg = 0x2e0000ull; r_zt = 0x2e00000000ull; r_m6 = 0x2e000000000000ull; r_jc = 46u; r_vw = 0x2e0000ull; r_xz = 0x2e00000000ull; goto l_std_tz; }
    t_ni_2 = (u64)((u64)ld8((a_4 + 20)) << 32ull);
    if (a_5 == 21ull) { r_zo = 0x2e000000ull; r_lj = 11776ull; r_42 = 0x2e00000000000000ull; r_5r = 0x2e0000000000ull; r_pa = 0x2e000000ull; r_7p = 11776ull; r_o8 = 0x2e00000000000000ull; r_bf = 0x2e0000000000ull; r_bp = 0x2e000000ull; r_m3 = 11776ull; r_1s = 0x2e00000000000000ull; r_2r = 0x2e0000000000ull; r_pk = 0x2e000000ull; r_wb = 11776ull; r_3n = 0x2e00000000000000ull; r_bo = 0x2e0000000000ull; r_zs = 0x2e000000ull; r_v3 = 11776ull; r_ua = 0x2e00000000000000ull; r_v9 = 0x2e0000000000ull; r_ps = 0x2e000000ull; r_gi = 11776ull; r_3f = 0x2e00000000000000ull; r_pn = 0x2e0000000000ull; r_je = 0x2e000000ull; r_jk = 11776ull; r_l0 = 0x2e00000000000000ull; r_qi = 0x2e0000000000ull; r_vv = t_ed_2; r_sr = t_6o_2; r_qg = t_1w_1; r_q7 = t_pq_1; r_58 = t_ed_1; r_6f = t_6o_1; r_w2 = t_1w; r_mm = t_pq; r_0r = t_ed; r_75 = t_6o; r_fn = r_pe; r_i4 = t_pt; r_1t = t_ni; r_a1 = t_bt; r_cc = r_47; r_5r_1 = t_pt_1; r_og = t_ni_1; r_7z = t_bt_1; r_m1 = r_47_1; r_nq = t_pt_2; r_7w = t_ni_2; r_w5 = 0x2e000000000000ull; r_0i = 46u; r_x9 = 0x2e0000ull; r_vm = 0x2e00000000ull; r_4a = 0x2e000000000000ull; r_75_1 = 46u; r_9s = 0x2e0000ull; r_co = 0x2e00000000ull; r_0c = 0x2e000000000000ull; r_9q = 46u; r_zy = 0x2e0000ull; r_ph = 0x2e00000000ull; r_hk = 0x2e000000000000ull; r_tw = 46u; r_hl = 0x2e0000ull; r_7a = 0x2e00000000ull; r_1y = 0x2e000000000000ull; r_if = 46u; r_uk = 0x2e0000ull; r_3d = 0x2e00000000ull; r_6w = 0x2e000000000000ull; r_93 = 46u; r_gg = 0x2e0000ull; r_zt = 0x2e00000000ull; r_m6 = 0x2e000000000000ull; r_jc = 46u; r_vw = 0x2e0000ull; r_xz = 0x2e00000000ull; goto l_std_tz; }
    t_pq_2 = (u64)((u64)ld8((a_4 + 21)) << 40ull);
    if (!(a_5 > 22ull)) { r_zo = 0x2e000000ull; r_lj = 11776ull; r_42 = 0x2e00000000000000ull; r_5r = 0x2e0000000000ull; r_pa = 0x2e000000ull; r_7p = 11776ull; r_o8 = 0x2e00000000000000ull; r_bf = 0x2e0000000000ull; r_bp = 0x2e000000ull; r_m3 = 11776ull; r_1s = 0x2e00000000000000ull; r_2r = 0x2e0000000000ull; r_pk = 0x2e000000ull; r_wb = 11776ull; r_3n = 0x2e00000000000000ull; r_bo = 0x2e0000000000ull; r_zs = 0x2e000000ull; r_v3 = 11776ull; r_ua = 0x2e00000000000000ull; r_v9 = 0x2e0000000000ull; r_ps = 0x2e000000ull; r_gi = 11776ull; r_3f = 0x2e00000000000000ull; r_pn = 0x2e0000000000ull; r_je = 0x2e000000ull; r_jk = 11776ull; r_l0 = 0x2e00000000000000ull; r_qi = t_pq_2; r_vv = t_ed_2; r_sr = t_6o_2; r_qg = t_1w_1; r_q7 = t_pq_1; r_58 = t_ed_1; r_6f = t_6o_1; r_w2 = t_1w; r_mm = t_pq; r_0r = t_ed; r_75 = t_6o; r_fn = r_pe; r_i4 = t_pt; r_1t = t_ni; r_a1 = t_bt; r_cc = r_47; r_5r_1 = t_pt_1; r_og = t_ni_1; r_7z = t_bt_1; r_m1 = r_47_1; r_nq = t_pt_2; r_7w = t_ni_2; r_w5 = 0x2e000000000000ull; r_0i = 46u; r_x9 = 0x2e0000ull; r_vm = 0x2e00000000ull; r_4a = 0x2e000000000000ull; r_75_1 = 46u; r_9s = 0x2e0000ull; r_co = 0x2e00000000ull; r_0c = 0x2e000000000000ull; r_9q = 46u; r_zy = 0x2e0000ull; r_ph = 0x2e00000000ull; r_hk = 0x2e000000000000ull; r_tw = 46u; r_hl = 0x2e0000ull; r_7a = 0x2e00000000ull; r_1y = 0x2e000000000000ull; r_if = 46u; r_uk = 0x2e0000ull; r_3d = 0x2e00000000ull; r_6w = 0x2e000000000000ull; r_93 = 46u; r_gg = 0x2e0000ull; r_zt = 0x2e00000000ull; r_m6 = 0x2e000000000000ull; r_jc = 46u; r_vw = 0x2e0000ull; r_xz = 0x2e00000000ull; goto l_std_tz; }
    t_bt_2 = (u64)((u64)ld8((a_4 + 22)) << 48ull);
    if (a_5 == 23ull) { r_zo = 0x2e000000ull; r_lj = 11776ull; r_42 = 0x2e00000000000000ull; r_5r = 0x2e0000000000ull; r_pa = 0x2e000000ull; r_7p = 11776ull; r_o8 = 0x2e00000000000000ull; r_bf = 0x2e0000000000ull; r_bp = 0x2e000000ull; r_m3 = 11776ull; r_1s = 0x2e00000000000000ull; r_2r = 0x2e0000000000ull; r_pk = 0x2e000000ull; r_wb = 11776ull; r_3n = 0x2e00000000000000ull; r_bo = 0x2e0000000000ull; r_zs = 0x2e000000ull; r_v3 = 11776ull; r_ua = 0x2e00000000000000ull; r_v9 = 0x2e0000000000ull; r_ps = 0x2e000000ull; r_gi = 11776ull; r_3f = 0x2e00000000000000ull; r_pn = 0x2e0000000000ull; r_je = 0x2e000000ull; r_jk = 11776ull; r_l0 = 0x2e00000000000000ull; r_qi = t_pq_2; r_vv = t_ed_2; r_sr = t_6o_2; r_qg = t_1w_1; r_q7 = t_pq_1; r_58 = t_ed_1; r_6f = t_6o_1; r_w2 = t_1w; r_mm = t_pq; r_0r = t_ed; r_75 = t_6o; r_fn = r_pe; r_i4 = t_pt; r_1t = t_ni; r_a1 = t_bt; r_cc = r_47; r_5r_1 = t_pt_1; r_og = t_ni_1; r_7z = t_bt_1; r_m1 = r_47_1; r_nq = t_pt_2; r_7w = t_ni_2; r_w5 = t_bt_2; r_0i = 46u; r_x9 = 0x2e0000ull; r_vm = 0x2e00000000ull; r_4a = 0x2e000000000000ull; r_75_1 = 46u; r_9s = 0x2e0000ull; r_co = 0x2e00000000ull; r_0c = 0x2e000000000000ull; r_9q = 46u; r_zy = 0x2e0000ull; r_ph = 0x2e00000000ull; r_hk = 0x2e000000000000ull; r_tw = 46u; r_hl = 0x2e0000ull; r_7a = 0x2e00000000ull; r_1y = 0x2e000000000000ull; r_if = 46u; r_uk = 0x2e0000ull; r_3d = 0x2e00000000ull; r_6w = 0x2e000000000000ull; r_93 = 46u; r_gg = 0x2e0000ull; r_zt = 0x2e00000000ull; r_m6 = 0x2e000000000000ull; r_jc = 46u; r_vw = 0x2e0000ull; r_xz = 0x2e00000000ull; goto l_std_tz; }
    t_1w_2 = (u64)((u64)ld8((a_4 + 23)) << 56ull);
    if (!(a_5 > 24ull)) { r_zo = 0x2e000000ull; r_lj = 11776ull; r_42 = 0x2e00000000000000ull; r_5r = 0x2e0000000000ull; r_pa = 0x2e000000ull; r_7p = 11776ull; r_o8 = 0x2e00000000000000ull; r_bf = 0x2e0000000000ull; r_bp = 0x2e000000ull; r_m3 = 11776ull; r_1s = 0x2e00000000000000ull; r_2r = 0x2e0000000000ull; r_pk = 0x2e000000ull; r_wb = 11776ull; r_3n = 0x2e00000000000000ull; r_bo = 0x2e0000000000ull; r_zs = 0x2e000000ull; r_v3 = 11776ull; r_ua = 0x2e00000000000000ull; r_v9 = 0x2e0000000000ull; r_ps = 0x2e000000ull; r_gi = 11776ull; r_3f = 0x2e00000000000000ull; r_pn = 0x2e0000000000ull; r_je = 0x2e000000ull; r_jk = 11776ull; r_l0 = t_1w_2; r_qi = t_pq_2; r_vv = t_ed_2; r_sr = t_6o_2; r_qg = t_1w_1; r_q7 = t_pq_1; r_58 = t_ed_1; r_6f = t_6o_1; r_w2 = t_1w; r_mm = t_pq; r_0r = t_ed; r_75 = t_6o; r_fn = r_pe; r_i4 = t_pt; r_1t = t_ni; r_a1 = t_bt; r_cc = r_47; r_5r_1 = t_pt_1; r_og = t_ni_1; r_7z = t_bt_1; r_m1 = r_47_1; r_nq = t_pt_2; r_7w = t_ni_2; r_w5 = t_bt_2; r_0i = 46u; r_x9 = 0x2e0000ull; r_vm = 0x2e00000000ull; r_4a = 0x2e000000000000ull; r_75_1 = 46u; r_9s = 0x2e0000ull; r_co = 0x2e00000000ull; r_0c = 0x2e000000000000ull; r_9q = 46u; r_zy = 0x2e0000ull; r_ph = 0x2e00000000ull; r_hk = 0x2e000000000000ull; r_tw = 46u; r_hl = 0x2e0000ull; r_7a = 0x2e00000000ull; r_1y = 0x2e000000000000ull; r_if = 46u; r_uk = 0x2e0000ull; r_3d = 0x2e00000000ull; r_6w = 0x2e000000000000ull; r_93 = 46u; r_gg = 0x2e0000ull; r_zt = 0x2e00000000ull; r_m6 = 0x2e000000000000ull; r_jc = 46u; r_vw = 0x2e0000ull; r_xz = 0x2e00000000ull; goto l_std_tz; }
    r_47_2 = ld8((a_4 + 24));
    if (a_5 == 25ull) { r_zo = 0x2e000000ull; r_lj = 11776ull; r_42 = 0x2e00000000000000ull; r_5r = 0x2e0000000000ull; r_pa = 0x2e000000ull; r_7p = 11776ull; r_o8 = 0x2e00000000000000ull; r_bf = 0x2e0000000000ull; r_bp = 0x2e000000ull; r_m3 = 11776ull; r_1s = 0x2e00000000000000ull; r_2r = 0x2e0000000000ull; r_pk = 0x2e000000ull; r_wb = 11776ull; r_3n = 0x2e00000000000000ull; r_bo = 0x2e0000000000ull; r_zs = 0x2e000000ull; r_v3 = 11776ull; r_ua = 0x2e00000000000000ull; r_v9 = 0x2e0000000000ull; r_ps = 0x2e000000ull; r_gi = 11776ull; r_3f = 0x2e00000000000000ull; r_pn = 0x2e0000000000ull; r_je = 0x2e000000ull; r_jk = 11776ull; r_l0 = t_1w_2; r_qi = t_pq_2; r_vv = t_ed_2; r_sr = t_6o_2; r_qg = t_1w_1; r_q7 = t_pq_1; r_58 = t_ed_1; r_6f = t_6o_1; r_w2 = t_1w; r_mm = t_pq; r_0r = t_ed; r_75 = t_6o; r_fn = r_pe; r_i4 = t_pt; r_1t = t_ni; r_a1 = t_bt; r_cc = r_47; r_5r_1 = t_pt_1; r_og = t_ni_1; r_7z = t_bt_1; r_m1 = r_47_1; r_nq = t_pt_2; r_7w = t_ni_2; r_w5 = t_bt_2; r_0i = r_47_2; r_x9 = 0x2e0000ull; r_vm = 0x2e00000000ull; r_4a = 0x2e000000000000ull; r_75_1 = 46u; r_9s = 0x2e0000ull; r_co = 0x2e00000000ull; r_0c = 0x2e000000000000ull; r_9q = 46u; r_zy = 0x2e0000ull; r_ph = 0x2e00000000ull; r_hk = 0x2e000000000000ull; r_tw = 46u; r_hl = 0x2e0000ull; r_7a = 0x2e00000000ull; r_1y = 0x2e000000000000ull; r_if = 46u; r_uk = 0x2e0000ull; r_3d = 0x2e00000000ull; r_6w = 0x2e000000000000ull; r_93 = 46u; r_gg = 0x2e0000ull; r_zt = 0x2e00000000ull; r_m6 = 0x2e000000000000ull; r_jc = 46u; r_vw = 0x2e0000ull; r_xz = 0x2e00000000ull; goto l_std_tz; }
    t_6o_3 = (u64)((u64)ld8((a_4 + 25)) << 8ull);
    if (!(a_5 > 26ull)) { r_zo = 0x2e000000ull; r_lj = 11776ull; r_42 = 0x2e00000000000000ull; r_5r = 0x2e0000000000ull; r_pa = 0x2e000000ull; r_7p = 11776ull; r_o8 = 0x2e00000000000000ull; r_bf = 0x2e0000000000ull; r_bp = 0x2e000000ull; r_m3 = 11776ull; r_1s = 0x2e00000000000000ull; r_2r = 0x2e0000000000ull; r_pk = 0x2e000000ull; r_wb = 11776ull; r_3n = 0x2e00000000000000ull; r_bo = 0x2e0000000000ull; r_zs = 0x2e000000ull; r_v3 = 11776ull; r_ua = 0x2e00000000000000ull; r_v9 = 0x2e0000000000ull; r_ps = 0x2e000000ull; r_gi = 11776ull; r_3f = 0x2e00000000000000ull; r_pn = 0x2e0000000000ull; r_je = 0x2e000000ull; r_jk = t_6o_3; r_l0 = t_1w_2; r_qi = t_pq_2; r_vv = t_ed_2; r_sr = t_6o_2; r_qg = t_1w_1; r_q7 = t_pq_1; r_58 = t_ed_1; r_6f = t_6o_1; r_w2 = t_1w; r_mm = t_pq; r_0r = t_ed; r_75 = t_6o; r_fn = r_pe; r_i4 = t_pt; r_1t = t_ni; r_a1 = t_bt; r_cc = r_47; r_5r_1 = t_pt_1; r_og = t_ni_1; r_7z = t_bt_1; r_m1 = r_47_1; r_nq = t_pt_2; r_7w = t_ni_2; r_w5 = t_bt_2; r_0i = r_47_2; r_x9 = 0x2e0000ull; r_vm = 0x2e00000000ull; r_4a = 0x2e000000000000ull; r_75_1 = 46u; r_9s = 0x2e0000ull; r_co = 0x2e00000000ull; r_0c = 0x2e000000000000ull; r_9q = 46u; r_zy = 0x2e0000ull; r_ph = 0x2e00000000ull; r_hk = 0x2e000000000000ull; r_tw = 46u; r_hl = 0x2e0000ull; r_7a = 0x2e00000000ull; r_1y = 0x2e000000000000ull; r_if = 46u; r_uk = 0x2e0000ull; r_3d = 0x2e00000000ull; r_6w = 0x2e000000000000ull; r_93 = 46u; r_gg = 0x2e0000ull; r_zt = 0x2e00000000ull; r_m6 = 0x2e000000000000ull; r_jc = 46u; r_vw = 0x2e0000ull; r_xz = 0x2e00000000ull; goto l_std_tz; }
    t_pt_3 = (u64)((u64)ld8((a_4 + 26)) << 16ull);
    if (a_5 == 27ull) { r_zo = 0x2e000000ull; r_lj = 11776ull; r_42 = 0x2e00000000000000ull; r_5r = 0x2e0000000000ull; r_pa = 0x2e000000ull; r_7p = 11776ull; r_o8 = 0x2e00000000000000ull; r_bf = 0x2e0000000000ull; r_bp = 0x2e000000ull; r_m3 = 11776ull; r_1s = 0x2e00000000000000ull; r_2r = 0x2e0000000000ull; r_pk = 0x2e000000ull; r_wb = 11776ull; r_3n = 0x2e00000000000000ull; r_bo = 0x2e0000000000ull; r_zs = 0x2e000000ull; r_v3 = 11776ull; r_ua = 0x2e00000000000000ull; r_v9 = 0x2e0000000000ull; r_ps = 0x2e000000ull; r_gi = 11776ull; r_3f = 0x2e00000000000000ull; r_pn = 0x2e0000000000ull; r_je = 0x2e000000ull; r_jk = t_6o_3; r_l0 = t_1w_2; r_qi = t_pq_2; r_vv = t_ed_2; r_sr = t_6o_2; r_qg = t_1w_1; r_q7 = t_pq_1; r_58 = t_ed_1; r_6f = t_6o_1; r_w2 = t_1w; r_mm = t_pq; r_0r = t_ed; r_75 = t_6o; r_fn = r_pe; r_i4 = t_pt; r_1t = t_ni; r_a1 = t_bt; r_cc = r_47; r_5r_1 = t_pt_1; r_og = t_ni_1; r_7z = t_bt_1; r_m1 = r_47_1; r_nq = t_pt_2; r_7w = t_ni_2; r_w5 = t_bt_2; r_0i = r_47_2; r_x9 = t_pt_3; r_vm = 0x2e00000000ull; r_4a = 0x2e000000000000ull; r_75_1 = 46u; r_9s = 0x2e0000ull; r_co = 0x2e00000000ull; r_0c = 0x2e000000000000ull; r_9q = 46u; r_zy = 0x2e0000ull; r_ph = 0x2e00000000ull; r_hk = 0x2e000000000000ull; r_tw = 46u; r_hl = 0x2e0000ull; r_7a = 0x2e00000000ull; r_1y = 0x2e000000000000ull; r_if = 46u; r_uk = 0x2e0000ull; r_3d = 0x2e00000000ull; r_6w = 0x2e000000000000ull; r_93 = 46u; r_gg = 0x2e0000ull; r_zt = 0x2e00000000ull; r_m6 = 0x2e000000000000ull; r_jc = 46u; r_vw = 0x2e0000ull; r_xz = 0x2e00000000ull; goto l_std_tz; }
    t_ed_3 = (u64)((u64)ld8((a_4 + 27)) << 24ull);
    if (!(a_5 > 28ull)) { r_zo = 0x2e000000ull; r_lj = 11776ull; r_42 = 0x2e00000000000000ull; r_5r = 0x2e0000000000ull; r_pa = 0x2e000000ull; r_7p = 11776ull; r_o8 = 0x2e00000000000000ull; r_bf = 0x2e0000000000ull; r_bp = 0x2e000000ull; r_m3 = 11776ull; r_1s = 0x2e00000000000000ull; r_2r = 0x2e0000000000ull; r_pk = 0x2e000000ull; r_wb = 11776ull; r_3n = 0x2e00000000000000ull; r_bo = 0x2e0000000000ull; r_zs = 0x2e000000ull; r_v3 = 11776ull; r_ua = 0x2e00000000000000ull; r_v9 = 0x2e0000000000ull; r_ps = 0x2e000000ull; r_gi = 11776ull; r_3f = 0x2e00000000000000ull; r_pn = 0x2e0000000000ull; r_je = t_ed_3; r_jk = t_6o_3; r_l0 = t_1w_2; r_qi = t_pq_2; r_vv = t_ed_2; r_sr = t_6o_2; r_qg = t_1w_1; r_q7 = t_pq_1; r_58 = t_ed_1; r_6f = t_6o_1; r_w2 = t_1w; r_mm = t_pq; r_0r = t_ed; r_75 = t_6o; r_fn = r_pe; r_i4 = t_pt; r_1t = t_ni; r_a1 = t_bt; r_cc = r_47; r_5r_1 = t_pt_1; r_og = t_ni_1; r_7z = t_bt_1; r_m1 = r_47_1; r_nq = t_pt_2; r_7w = t_ni_2; r_w5 = t_bt_2; r_0i = r_47_2; r_x9 = t_pt_3; r_vm = 0x2e00000000ull; r_4a = 0x2e000000000000ull; r_75_1 = 46u; r_9s = 0x2e0000ull; r_co = 0x2e00000000ull; r_0c = 0x2e000000000000ull; r_9q = 46u; r_zy = 0x2e0000ull; r_ph = 0x2e00000000ull; r_hk = 0x2e000000000000ull; r_tw = 46u; r_hl = 0x2e0000ull; r_7a = 0x2e00000000ull; r_1y = 0x2e000000000000ull; r_if = 46u; r_uk = 0x2e0000ull; r_3d = 0x2e00000000ull; r_6w = 0x2e000000000000ull; r_93 = 46u; r_gg = 0x2e0000ull; r_zt = 0x2e00000000ull; r_m6 = 0x2e000000000000ull; r_jc = 46u; r_vw = 0x2e0000ull; r_xz = 0x2e00000000ull; goto l_std_tz; }
    t_ni_3 = (u64)((u64)ld8((a_4 + 28)) << 32ull);
    if (a_5 == 29ull) { r_zo = 0x2e000000ull; r_lj = 11776ull; r_42 = 0x2e00000000000000ull; r_5r = 0x2e0000000000ull; r_pa = 0x2e000000ull; r_7p = 11776ull; r_o8 = 0x2e00000000000000ull; r_bf = 0x2e0000000000ull; r_bp = 0x2e000000ull; r_m3 = 11776ull; r_1s = 0x2e00000000000000ull; r_2r = 0x2e0000000000ull; r_pk = 0x2e000000ull; r_wb = 11776ull; r_3n = 0x2e00000000000000ull; r_bo = 0x2e0000000000ull; r_zs = 0x2e000000ull; r_v3 = 11776ull; r_ua = 0x2e00000000000000ull; r_v9 = 0x2e0000000000ull; r_ps = 0x2e000000ull; r_gi = 11776ull; r_3f = 0x2e00000000000000ull; r_pn = 0x2e0000000000ull; r_je = t_ed_3; r_jk = t_6o_3; r_l0 = t_1w_2; r_qi = t_pq_2; r_vv = t_ed_2; r_sr = t_6o_2; r_qg = t_1w_1; r_q7 = t_pq_1; r_58 = t_ed_1; r_6f = t_6o_1; r_w2 = t_1w; r_mm = t_pq; r_0r = t_ed; r_75 = t_6o; r_fn = r_pe; r_i4 = t_pt; r_1t = t_ni; r_a1 = t_bt; r_cc = r_47; r_5r_1 = t_pt_1; r_og = t_ni_1; r_7z = t_bt_1; r_m1 = r_47_1; r_nq = t_pt_2; r_7w = t_ni_2; r_w5 = t_bt_2; r_0i = r_47_2; r_x9 = t_pt_3; r_vm = t_ni_3; r_4a = 0x2e000000000000ull; r_75_1 = 46u; r_9s = 0x2e0000ull; r_co = 0x2e00000000ull; r_0c = 0x2e000000000000ull; r_9q = 46u; r_zy = 0x2e0000ull; r_ph = 0x2e00000000ull; r_hk = 0x2e000000000000ull; r_tw = 46u; r_hl = 0x2e0000ull; r_7a = 0x2e00000000ull; r_1y = 0x2e000000000000ull; r_if = 46u; r_uk = 0x2e0000ull; r_3d = 0x2e00000000ull; r_6w = 0x2e000000000000ull; r_93 = 46u; r_gg = 0x2e0000ull; r_zt = 0x2e00000000ull; r_m6 = 0x2e000000000000ull; r_jc = 46u; r_vw = 0x2e0000ull; r_xz = 0x2e00000000ull; goto l_std_tz; }
    t_pq_3 = (u64)((u64)ld8((a_4 + 29)) << 40ull);
    if (!(a_5 > 30ull)) { r_zo = 0x2e000000ull; r_lj = 11776ull; r_42 = 0x2e00000000000000ull; r_5r = 0x2e0000000000ull; r_pa = 0x2e000000ull; r_7p = 11776ull; r_o8 = 0x2e00000000000000ull; r_bf = 0x2e0000000000ull; r_bp = 0x2e000000ull; r_m3 = 11776ull; r_1s = 0x2e00000000000000ull; r_2r = 0x2e0000000000ull; r_pk = 0x2e000000ull; r_wb = 11776ull; r_3n = 0x2e00000000000000ull; r_bo = 0x2e0000000000ull; r_zs = 0x2e000000ull; r_v3 = 11776ull; r_ua = 0x2e00000000000000ull; r_v9 = 0x2e0000000000ull; r_ps = 0x2e000000ull; r_gi = 11776ull; r_3f = 0x2e00000000000000ull; r_pn = t_pq_3; r_je = t_ed_3; r_jk = t_6o_3; r_l0 = t_1w_2; r_qi = t_pq_2; r_vv = t_ed_2; r_sr = t_6o_2; r_qg = t_1w_1; r_q7 = t_pq_1; r_58 = t_ed_1; r_6f = t_6o_1; r_w2 = t_1w; r_mm = t_pq; r_0r = t_ed; r_75 = t_6o; r_fn = r_pe; r_i4 = t_pt; r_1t = t_ni; r_a1 = t_bt; r_cc = r_47; r_5r_1 = t_pt_1; r_og = t_ni_1; r_7z = t_bt_1; r_m1 = r_47_1; r_nq = t_pt_2; r_7w = t_ni_2; r_w5 = t_bt_2; r_0i = r_47_2; r_x9 = t_pt_3; r_vm = t_ni_3; r_4a = 0x2e000000000000ull; r_75_1 = 46u; r_9s = 0x2e0000ull; r_co = 0x2e00000000ull; r_0c = 0x2e000000000000ull; r_9q = 46u; r_zy = 0x2e0000ull; r_ph = 0x2e00000000ull; r_hk = 0x2e000000000000ull; r_tw = 46u; r_hl = 0x2e0000ull; r_7a = 0x2e00000000ull; r_1y = 0x2e000000000000ull; r_if = 46u; r_uk = 0x2e0000ull; r_3d = 0x2e00000000ull; r_6w = 0x2e000000000000ull; r_93 = 46u; r_gg = 0x2e0000ull; r_zt = 0x2e00000000ull; r_m6 = 0x2e000000000000ull; r_jc = 46u; r_vw = 0x2e0000ull; r_xz = 0x2e00000000ull; goto l_std_tz; }
    t_bt_3 = (u64)((u64)ld8((a_4 + 30)) << 48ull);
    if (a_5 == 31ull) { r_zo = 0x2e000000ull; r_lj = 11776ull; r_42 = 0x2e00000000000000ull; r_5r = 0x2e0000000000ull; r_pa = 0x2e000000ull; r_7p = 11776ull; r_o8 = 0x2e00000000000000ull; r_bf = 0x2e0000000000ull; r_bp = 0x2e000000ull; r_m3 = 11776ull; r_1s = 0x2e00000000000000ull; r_2r = 0x2e0000000000ull; r_pk = 0x2e000000ull; r_wb = 11776ull; r_3n = 0x2e00000000000000ull; r_bo = 0x2e0000000000ull; r_zs = 0x2e000000ull; r_v3 = 11776ull; r_ua = 0x2e00000000000000ull; r_v9 = 0x2e0000000000ull; r_ps = 0x2e000000ull; r_gi = 11776ull; r_3f = 0x2e00000000000000ull; r_pn = t_pq_3; r_je = t_ed_3; r_jk = t_6o_3; r_l0 = t_1w_2; r_qi = t_pq_2; r_vv = t_ed_2; r_sr = t_6o_2; r_qg = t_1w_1; r_q7 = t_pq_1; r_58 = t_ed_1; r_6f = t_6o_1; r_w2 = t_1w; r_mm = t_pq; r_0r = t_ed; r_75 = t_6o; r_fn = r_pe; r_i4 = t_pt; r_1t = t_ni; r_a1 = t_bt; r_cc = r_47; r_5r_1 = t_pt_1; r_og = t_ni_1; r_7z = t_bt_1; r_m1 = r_47_1; r_nq = t_pt_2; r_7w = t_ni_2; r_w5 = t_bt_2; r_0i = r_47_2; r_x9 = t_pt_3; r_vm = t_ni_3; r_4a = t_bt_3; r_75_1 = 46u; r_9s = 0x2e0000ull; r_co = 0x2e00000000ull; r_0c = 0x2e000000000000ull; r_9q = 46u; r_zy = 0x2e0000ull; r_ph = 0x2e00000000ull; r_hk = 0x2e000000000000ull; r_tw = 46u; r_hl = 0x2e0000ull; r_7a = 0x2e00000000ull; r_1y = 0x2e000000000000ull; r_if = 46u; r_uk = 0x2e0000ull; r_3d = 0x2e00000000ull; r_6w = 0x2e000000000000ull; r_93 = 46u; r_gg = 0x2e0000ull; r_zt = 0x2e00000000ull; r_m6 = 0x2e000000000000ull; r_jc = 46u; r_vw = 0x2e0000ull; r_xz = 0x2e00000000ull; goto l_std_tz; }
    t_1w_3 = (u64)((u64)ld8((a_4 + 31)) << 56ull);
    if (!(a_5 > 32ull)) { r_zo = 0x2e000000ull; r_lj = 11776ull; r_42 = 0x2e00000000000000ull; r_5r = 0x2e0000000000ull; r_pa = 0x2e000000ull; r_7p = 11776ull; r_o8 = 0x2e00000000000000ull; r_bf = 0x2e0000000000ull; r_bp = 0x2e000000ull; r_m3 = 11776ull; r_1s = 0x2e00000000000000ull; r_2r = 0x2e0000000000ull; r_pk = 0x2e000000ull; r_wb = 11776ull; r_3n = 0x2e00000000000000ull; r_bo = 0x2e0000000000ull; r_zs = 0x2e000000ull; r_v3 = 11776ull; r_ua = 0x2e00000000000000ull; r_v9 = 0x2e0000000000ull; r_ps = 0x2e000000ull; r_gi = 11776ull; r_3f = t_1w_3; r_pn = t_pq_3; r_je = t_ed_3; r_jk = t_6o_3; r_l0 = t_1w_2; r_qi = t_pq_2; r_vv = t_ed_2; r_sr = t_6o_2; r_qg = t_1w_1; r_q7 = t_pq_1; r_58 = t_ed_1; r_6f = t_6o_1; r_w2 = t_1w; r_mm = t_pq; r_0r = t_ed; r_75 = t_6o; r_fn = r_pe; r_i4 = t_pt; r_1t = t_ni; r_a1 = t_bt; r_cc = r_47; r_5r_1 = t_pt_1; r_og = t_ni_1; r_7z = t_bt_1; r_m1 = r_47_1; r_nq = t_pt_2; r_7w = t_ni_2; r_w5 = t_bt_2; r_0i = r_47_2; r_x9 = t_pt_3; r_vm = t_ni_3; r_4a = t_bt_3; r_75_1 = 46u; r_9s = 0x2e0000ull; r_co = 0x2e00000000ull; r_0c = 0x2e000000000000ull; r_9q = 46u; r_zy = 0x2e0000ull; r_ph = 0x2e00000000ull; r_hk = 0x2e000000000000ull; r_tw = 46u; r_hl = 0x2e0000ull; r_7a = 0x2e00000000ull; r_1y = 0x2e000000000000ull; r_if = 46u; r_uk = 0x2e0000ull; r_3d = 0x2e00000000ull; r_6w = 0x2e000000000000ull; r_93 = 46u; r_gg = 0x2e0000ull; r_zt = 0x2e00000000ull; r_m6 = 0x2e000000000000ull; r_jc = 46u; r_vw = 0x2e0000ull; r_xz = 0x2e00000000ull; goto l_std_tz; }
    r_47_3 = ld8((a_4 + 32));
    if (a_5 == 33ull) { r_zo = 0x2e000000ull; r_lj = 11776ull; r_42 = 0x2e00000000000000ull; r_5r = 0x2e0000000000ull; r_pa = 0x2e000000ull; r_7p = 11776ull; r_o8 = 0x2e00000000000000ull; r_bf = 0x2e0000000000ull; r_bp = 0x2e000000ull; r_m3 = 11776ull; r_1s = 0x2e00000000000000ull; r_2r = 0x2e0000000000ull; r_pk = 0x2e000000ull; r_wb = 11776ull; r_3n = 0x2e00000000000000ull; r_bo = 0x2e0000000000ull; r_zs = 0x2e000000ull; r_v3 = 11776ull; r_ua = 0x2e00000000000000ull; r_v9 = 0x2e0000000000ull; r_ps = 0x2e000000ull; r_gi = 11776ull; r_3f = t_1w_3; r_pn = t_pq_3; r_je = t_ed_3; r_jk = t_6o_3; r_l0 = t_1w_2; r_qi = t_pq_2; r_vv = t_ed_2; r_sr = t_6o_2; r_qg = t_1w_1; r_q7 = t_pq_1; r_58 = t_ed_1; r_6f = t_6o_1; r_w2 = t_1w; r_mm = t_pq; r_0r = t_ed; r_75 = t_6o; r_fn = r_pe; r_i4 = t_pt; r_1t = t_ni; r_a1 = t_bt; r_cc = r_47; r_5r_1 = t_pt_1; r_og = t_ni_1; r_7z = t_bt_1; r_m1 = r_47_1; r_nq = t_pt_2; r_7w = t_ni_2; r_w5 = t_bt_2; r_0i = r_47_2; r_x9 = t_pt_3; r_vm = t_ni_3; r_4a = t_bt_3; r_75_1 = r_47_3; r_9s = 0x2e0000ull; r_co = 0x2e00000000ull; r_0c = 0x2e000000000000ull; r_9q = 46u; r_zy = 0x2e0000ull; r_ph = 0x2e00000000ull; r_hk = 0x2e000000000000ull; r_tw = 46u; r_hl = 0x2e0000ull; r_7a = 0x2e00000000ull; r_1y = 0x2e000000000000ull; r_if = 46u; r_uk = 0x2e0000ull; r_3d = 0x2e00000000ull; r_6w = 0x2e000000000000ull; r_93 = 46u; r_gg = 0x2e0000ull; r_zt = 0x2e00000000ull; r_m6 = 0x2e000000000000ull; r_jc = 46u; r_vw = 0x2e0000ull; r_xz = 0x2e00000000ull; goto l_std_tz; }
    t_6o_4 = (u64)((u64)ld8((a_4 + 33)) << 8ull);
    if (!(a_5 > 34ull)) { r_zo = 0x2e000000ull; r_lj = 11776ull; r_42 = 0x2e00000000000000ull; r_5r = 0x2e0000000000ull; r_pa = 0x2e000000ull; r_7p = 11776ull; r_o8 = 0x2e00000000000000ull; r_bf = 0x2e0000000000ull; r_bp = 0x2e000000ull; r_m3 = 11776ull; r_1s = 0x2e00000000000000ull; r_2r = 0x2e0000000000ull; r_pk = 0x2e000000ull; r_wb = 11776ull; r_3n = 0x2e00000000000000ull; r_bo = 0x2e0000000000ull; r_zs = 0x2e000000ull; r_v3 = 11776ull; r_ua = 0x2e00000000000000ull; r_v9 = 0x2e0000000000ull; r_ps = 0x2e000000ull; r_gi = t_6o_4; r_3f = t_1w_3; r_pn = t_pq_3; r_je = t_ed_3; r_jk = t_6o_3; r_l0 = t_1w_2; r_qi = t_pq_2; r_vv = t_ed_2; r_sr = t_6o_2; r_qg = t_1w_1; r_q7 = t_pq_1; r_58 = t_ed_1; r_6f = t_6o_1; r_w2 = t_1w; r_mm = t_pq; r_0r = t_ed; r_75 = t_6o; r_fn = r_pe; r_i4 = t_pt; r_1t = t_ni; r_a1 = t_bt; r_cc = r_47; r_5r_1 = t_pt_1; r_og = t_ni_1; r_7z = t_bt_1; r_m1 = r_47_1; r_nq = t_pt_2; r_7w = t_ni_2; r_w5 = t_bt_2; r_0i = r_47_2; r_x9 = t_pt_3; r_vm = t_ni_3; r_4a = t_bt_3; r_75_1 = r_47_3; r_9s = 0x2e0000ull; r_co = 0x2e00000000ull; r_0c = 0x2e000000000000ull; r_9q = 46u; r_zy = 0x2e0000ull; r_ph = 0x2e00000000ull; r_hk = 0x2e000000000000ull; r_tw = 46u; r_hl = 0x2e0000ull; r_7a = 0x2e00000000ull; r_1y = 0x2e000000000000ull; r_if = 46u; r_uk = 0x2e0000ull; r_3d = 0x2e00000000ull; r_6w = 0x2e000000000000ull; r_93 = 46u; r_gg = 0x2e0000ull; r_zt = 0x2e00000000ull; r_m6 = 0x2e000000000000ull; r_jc = 46u; r_vw = 0x2e0000ull; r_xz = 0x2e00000000ull; goto l_std_tz; }
    t_pt_4 = (u64)((u64)ld8((a_4 + 34)) << 16ull);
    if (a_5 == 35ull) { r_zo = 0x2e000000ull; r_lj = 11776ull; r_42 = 0x2e00000000000000ull; r_5r = 0x2e0000000000ull; r_pa = 0x2e000000ull; r_7p = 11776ull; r_o8 = 0x2e00000000000000ull; r_bf = 0x2e0000000000ull; r_bp = 0x2e000000ull; r_m3 = 11776ull; r_1s = 0x2e00000000000000ull; r_2r = 0x2e0000000000ull; r_pk = 0x2e000000ull; r_wb = 11776ull; r_3n = 0x2e00000000000000ull; r_bo = 0x2e0000000000ull; r_zs = 0x2e000000ull; r_v3 = 11776ull; r_ua = 0x2e00000000000000ull; r_v9 = 0x2e0000000000ull; r_ps = 0x2e000000ull; r_gi = t_6o_4; r_3f = t_1w_3; r_pn = t_pq_3; r_je = t_ed_3; r_jk = t_6o_3; r_l0 = t_1w_2; r_qi = t_pq_2; r_vv = t_ed_2; r_sr = t_6o_2; r_qg = t_1w_1; r_q7 = t_pq_1; r_58 = t_ed_1; r_6f = t_6o_1; r_w2 = t_1w; r_mm = t_pq; r_0r = t_ed; r_75 = t_6o; r_fn = r_pe; r_i4 = t_pt; r_1t = t_ni; r_a1 = t_bt; r_cc = r_47; r_5r_1 = t_pt_1; r_og = t_ni_1; r_7z = t_bt_1; r_m1 = r_47_1; r_nq = t_pt_2; r_7w = t_ni_2; r_w5 = t_bt_2; r_0i = r_47_2; r_x9 = t_pt_3; r_vm = t_ni_3; r_4a = t_bt_3; r_75_1 = r_47_3; r_9s = t_pt_4; r_co = 0x2e00000000ull; r_0c = 0x2e000000000000ull; r_9q = 46u; r_zy = 0x2e0000ull; r_ph = 0x2e00000000ull; r_hk = 0x2e000000000000ull; r_tw = 46u; r_hl = 0x2e0000ull; r_7a = 0x2e00000000ull; r_1y = 0x2e000000000000ull; r_if = 46u; r_uk = 0x2e0000ull; r_3d = 0x2e00000000ull; r_6w = 0x2e000000000000ull; r_93 = 46u; r_gg = 0x2e0000ull; r_zt = 0x2e00000000ull; r_m6 = 0x2e000000000000ull; r_jc = 46u; r_vw = 0x2e0000ull; r_xz = 0x2e00000000ull; goto l_std_tz; }
    t_ed_4 = (u64)((u64)ld8((a_4 + 35)) << 24ull);
    if (!(a_5 > 36ull)) { r_zo = 0x2e000000ull; r_lj = 11776ull; r_42 = 0x2e00000000000000ull; r_5r = 0x2e0000000000ull; r_pa = 0x2e000000ull; r_7p = 11776ull; r_o8 = 0x2e00000000000000ull; r_bf = 0x2e0000000000ull; r_bp = 0x2e000000ull; r_m3 = 11776ull; r_1s = 0x2e00000000000000ull; r_2r = 0x2e0000000000ull; r_pk = 0x2e000000ull; r_wb = 11776ull; r_3n = 0x2e00000000000000ull; r_bo = 0x2e0000000000ull; r_zs = 0x2e000000ull; r_v3 = 11776ull; r_ua = 0x2e00000000000000ull; r_v9 = 0x2e0000000000ull; r_ps = t_ed_4; r_gi = t_6o_4; r_3f = t_1w_3; r_pn = t_pq_3; r_je = t_ed_3; r_jk = t_6o_3; r_l0 = t_1w_2; r_qi = t_pq_2; r_vv = t_ed_2; r_sr = t_6o_2; r_qg = t_1w_1; r_q7 = t_pq_1; r_58 = t_ed_1; r_6f = t_6o_1; r_w2 = t_1w; r_mm = t_pq; r_0r = t_ed; r_75 = t_6o; r_fn = r_pe; r_i4 = t_pt; r_1t = t_ni; r_a1 = t_bt; r_cc = r_47; r_5r_1 = t_pt_1; r_og = t_ni_1; r_7z = t_bt_1; r_m1 = r_47_1; r_nq = t_pt_2; r_7w = t_ni_2; r_w5 = t_bt_2; r_0i = r_47_2; r_x9 = t_pt_3; r_vm = t_ni_3; r_4a = t_bt_3; r_75_1 = r_47_3; r_9s = t_pt_4; r_co = 0x2e00000000ull; r_0c = 0x2e000000000000ull; r_9q = 46u; r_zy = 0x2e0000ull; r_ph = 0x2e00000000ull; r_hk = 0x2e000000000000ull; r_tw = 46u; r_hl = 0x2e0000ull; r_7a = 0x2e00000000ull; r_1y = 0x2e000000000000ull; r_if = 46u; r_uk = 0x2e0000ull; r_3d = 0x2e00000000ull; r_6w = 0x2e000000000000ull; r_93 = 46u; r_gg = 0x2e0000ull; r_zt = 0x2e00000000ull; r_m6 = 0x2e000000000000ull; r_jc = 46u; r_vw = 0x2e0000ull; r_xz = 0x2e00000000ull; goto l_std_tz; }
    t_ni_4 = (u64)((u64)ld8((a_4 + 36)) << 32ull);
    if (a_5 == 37ull) { r_zo = 0x2e000000ull; r_lj = 11776ull; r_42 = 0x2e00000000000000ull; r_5r = 0x2e0000000000ull; r_pa = 0x2e000000ull; r_7p = 11776ull; r_o8 = 0x2e00000000000000ull; r_bf = 0x2e0000000000ull; r_bp = 0x2e000000ull; r_m3 = 11776ull; r_1s = 0x2e00000000000000ull; r_2r = 0x2e0000000000ull; r_pk = 0x2e000000ull; r_wb = 11776ull; r_3n = 0x2e00000000000000ull; r_bo = 0x2e0000000000ull; r_zs = 0x2e000000ull; r_v3 = 11776ull; r_ua = 0x2e00000000000000ull; r_v9 = 0x2e0000000000ull; r_ps = t_ed_4; r_gi = t_6o_4; r_3f = t_1w_3; r_pn = t_pq_3; r_je = t_ed_3; r_jk = t_6o_3; r_l0 = t_1w_2; r_qi = t_pq_2; r_vv = t_ed_2; r_sr = t_6o_2; r_qg = t_1w_1; r_q7 = t_pq_1; r_58 = t_ed_1; r_6f = t_6o_1; r_w2 = t_1w; r_mm = t_pq; r_0r = t_ed; r_75 = t_6o; r_fn = r_pe; r_i4 = t_pt; r_1t = t_ni; r_a1 = t_bt; r_cc = r_47; r_5r_1 = t_pt_1; r_og = t_ni_1; r_7z = t_bt_1; r_m1 = r_47_1; r_nq = t_pt_2; r_7w = t_ni_2; r_w5 = t_bt_2; r_0i = r_47_2; r_x9 = t_pt_3; r_vm = t_ni_3; r_4a = t_bt_3; r_75_1 = r_47_3; r_9s = t_pt_4; r_co = t_ni_4; r_0c = 0x2e000000000000ull; r_9q = 46u; r_zy = 0x2e0000ull; r_ph = 0x2e00000000ull; r_hk = 0x2e000000000000ull; r_tw = 46u; r_hl = 0x2e0000ull; r_7a = 0x2e00000000ull; r_1y = 0x2e000000000000ull; r_if = 46u; r_uk = 0x2e0000ull; r_3d = 0x2e00000000ull; r_6w = 0x2e000000000000ull; r_93 = 46u; r_gg = 0x2e0000ull; r_zt = 0x2e00000000ull; r_m6 = 0x2e000000000000ull; r_jc = 46u; r_vw = 0x2e0000ull; r_xz = 0x2e00000000ull; goto l_std_tz; }
    t_pq_4 = (u64)((u64)ld8((a_4 + 37)) << 40ull);
    if (!(a_5 > 38ull)) { r_zo = 0x2e000000ull; r_lj = 11776ull; r_42 = 0x2e00000000000000ull; r_5r = 0x2e0000000000ull; r_pa = 0x2e000000ull; r_7p = 11776ull; r_o8 = 0x2e00000000000000ull; r_bf = 0x2e0000000000ull; r_bp = 0x2e000000ull; r_m3 = 11776ull; r_1s = 0x2e00000000000000ull; r_2r = 0x2e0000000000ull; r_pk = 0x2e000000ull; r_wb = 11776ull; r_3n = 0x2e00000000000000ull; r_bo = 0x2e0000000000ull; r_zs = 0x2e000000ull; r_v3 = 11776ull; r_ua = 0x2e00000000000000ull; r_v9 = t_pq_4; r_ps = t_ed_4; r_gi = t_6o_4; r_3f = t_1w_3; r_pn = t_pq_3; r_je = t_ed_3; r_jk = t_6o_3; r_l0 = t_1w_2; r_qi = t_pq_2; r_vv = t_ed_2; r_sr = t_6o_2; r_qg = t_1w_1; r_q7 = t_pq_1; r_58 = t_ed_1; r_6f = t_6o_1; r_w2 = t_1w; r_mm = t_pq; r_0r = t_ed; r_75 = t_6o; r_fn = r_pe; r_i4 = t_pt; r_1t = t_ni; r_a1 = t_bt; r_cc = r_47; r_5r_1 = t_pt_1; r_og = t_ni_1; r_7z = t_bt_1; r_m1 = r_47_1; r_nq = t_pt_2; r_7w = t_ni_2; r_w5 = t_bt_2; r_0i = r_47_2; r_x9 = t_pt_3; r_vm = t_ni_3; r_4a = t_bt_3; r_75_1 = r_47_3; r_9s = t_pt_4; r_co = t_ni_4; r_0c = 0x2e000000000000ull; r_9q = 46u; r_zy = 0x2e0000ull; r_ph = 0x2e00000000ull; r_hk = 0x2e000000000000ull; r_tw = 46u; r_hl = 0x2e0000ull; r_7a = 0x2e00000000ull; r_1y = 0x2e000000000000ull; r_if = 46u; r_uk = 0x2e0000ull; r_3d = 0x2e00000000ull; r_6w = 0x2e000000000000ull; r_93 = 46u; r_gg = 0x2e0000ull; r_zt = 0x2e00000000ull; r_m6 = 0x2e000000000000ull; r_jc = 46u; r_vw = 0x2e0000ull; r_xz = 0x2e00000000ull; goto l_std_tz; }
    t_bt_4 = (u64)((u64)ld8((a_4 + 38)) << 48ull);
    if (a_5 == 39ull) { r_zo = 0x2e000000ull; r_lj = 11776ull; r_42 = 0x2e00000000000000ull; r_5r = 0x2e0000000000ull; r_pa = 0x2e000000ull; r_7p = 11776ull; r_o8 = 0x2e00000000000000ull; r_bf = 0x2e0000000000ull; r_bp = 0x2e000000ull; r_m3 = 11776ull; r_1s = 0x2e00000000000000ull; r_2r = 0x2e0000000000ull; r_pk = 0x2e000000ull; r_wb = 11776ull; r_3n = 0x2e00000000000000ull; r_bo = 0x2e0000000000ull; r_zs = 0x2e000000ull; r_v3 = 11776ull; r_ua = 0x2e00000000000000ull; r_v9 = t_pq_4; r_ps = t_ed_4; r_gi = t_6o_4; r_3f = t_1w_3; r_pn = t_pq_3; r_je = t_ed_3; r_jk = t_6o_3; r_l0 = t_1w_2; r_qi = t_pq_2; r_vv = t_ed_2; r_sr = t_6o_2; r_qg = t_1w_1; r_q7 = t_pq_1; r_58 = t_ed_1; r_6f = t_6o_1; r_w2 = t_1w; r_mm = t_pq; r_0r = t_ed; r_75 = t_6o; r_fn = r_pe; r_i4 = t_pt; r_1t = t_ni; r_a1 = t_bt; r_cc = r_47; r_5r_1 = t_pt_1; r_og = t_ni_1; r_7z = t_bt_1; r_m1 = r_47_1; r_nq = t_pt_2; r_7w = t_ni_2; r_w5 = t_bt_2; r_0i = r_47_2; r_x9 = t_pt_3; r_vm = t_ni_3; r_4a = t_bt_3; r_75_1 = r_47_3; r_9s = t_pt_4; r_co = t_ni_4; r_0c = t_bt_4; r_9q = 46u; r_zy = 0x2e0000ull; r_ph = 0x2e00000000ull; r_hk = 0x2e000000000000ull; r_tw = 46u; r_hl = 0x2e0000ull; r_7a = 0x2e00000000ull; r_1y = 0x2e000000000000ull; r_if = 46u; r_uk = 0x2e0000ull; r_3d = 0x2e00000000ull; r_6w = 0x2e000000000000ull; r_93 = 46u; r_gg = 0x2e0000ull; r_zt = 0x2e00000000ull; r_m6 = 0x2e000000000000ull; r_jc = 46u; r_vw = 0x2e0000ull; r_xz = 0x2e00000000ull; goto l_std_tz; }
    t_1w_4 = (u64)((u64)ld8((a_4 + 39)) << 56ull);
    if (!(a_5 > 40ull)) { r_zo = 0x2e000000ull; r_lj = 11776ull; r_42 = 0x2e00000000000000ull; r_5r = 0x2e0000000000ull; r_pa = 0x2e000000ull; r_7p = 11776ull; r_o8 = 0x2e00000000000000ull; r_bf = 0x2e0000000000ull; r_bp = 0x2e000000ull; r_m3 = 11776ull; r_1s = 0x2e00000000000000ull; r_2r = 0x2e0000000000ull; r_pk = 0x2e000000ull; r_wb = 11776ull; r_3n = 0x2e00000000000000ull; r_bo = 0x2e0000000000ull; r_zs = 0x2e000000ull; r_v3 = 11776ull; r_ua = t_1w_4; r_v9 = t_pq_4; r_ps = t_ed_4; r_gi = t_6o_4; r_3f = t_1w_3; r_pn = t_pq_3; r_je = t_ed_3; r_jk = t_6o_3; r_l0 = t_1w_2; r_qi = t_pq_2; r_vv = t_ed_2; r_sr = t_6o_2; r_qg = t_1w_1; r_q7 = t_pq_1; r_58 = t_ed_1; r_6f = t_6o_1; r_w2 = t_1w; r_mm = t_pq; r_0r = t_ed; r_75 = t_6o; r_fn = r_pe; r_i4 = t_pt; r_1t = t_ni; r_a1 = t_bt; r_cc = r_47; r_5r_1 = t_pt_1; r_og = t_ni_1; r_7z = t_bt_1; r_m1 = r_47_1; r_nq = t_pt_2; r_7w = t_ni_2; r_w5 = t_bt_2; r_0i = r_47_2; r_x9 = t_pt_3; r_vm = t_ni_3; r_4a = t_bt_3; r_75_1 = r_47_3; r_9s = t_pt_4; r_co = t_ni_4; r_0c = t_bt_4; r_9q = 46u; r_zy = 0x2e0000ull; r_ph = 0x2e00000000ull; r_hk = 0x2e000000000000ull; r_tw = 46u; r_hl = 0x2e0000ull; r_7a = 0x2e00000000ull; r_1y = 0x2e000000000000ull; r_if = 46u; r_uk = 0x2e0000ull; r_3d = 0x2e00000000ull; r_6w = 0x2e000000000000ull; r_93 = 46u; r_gg = 0x2e0000ull; r_zt = 0x2e00000000ull; r_m6 = 0x2e000000000000ull; r_jc = 46u; r_vw = 0x2e0000ull; r_xz = 0x2e00000000ull; goto l_std_tz; }
    r_47_4 = ld8((a_4 + 40));
    if (a_5 == 41ull) { r_zo = 0x2e000000ull; r_lj = 11776ull; r_42 = 0x2e00000000000000ull; r_5r = 0x2e0000000000ull; r_pa = 0x2e000000ull; r_7p = 11776ull; r_o8 = 0x2e00000000000000ull; r_bf = 0x2e0000000000ull; r_bp = 0x2e000000ull; r_m3 = 11776ull; r_1s = 0x2e00000000000000ull; r_2r = 0x2e0000000000ull; r_pk = 0x2e000000ull; r_wb = 11776ull; r_3n = 0x2e00000000000000ull; r_bo = 0x2e0000000000ull; r_zs = 0x2e000000ull; r_v3 = 11776ull; r_ua = t_1w_4; r_v9 = t_pq_4; r_ps = t_ed_4; r_gi = t_6o_4; r_3f = t_1w_3; r_pn = t_pq_3; r_je = t_ed_3; r_jk = t_6o_3; r_l0 = t_1w_2; r_qi = t_pq_2; r_vv = t_ed_2; r_sr = t_6o_2; r_qg = t_1w_1; r_q7 = t_pq_1; r_58 = t_ed_1; r_6f = t_6o_1; r_w2 = t_1w; r_mm = t_pq; r_0r = t_ed; r_75 = t_6o; r_fn = r_pe; r_i4 = t_pt; r_1t = t_ni; r_a1 = t_bt; r_cc = r_47; r_5r_1 = t_pt_1; r_og = t_ni_1; r_7z = t_bt_1; r_m1 = r_47_1; r_nq = t_pt_2; r_7w = t_ni_2; r_w5 = t_bt_2; r_0i = r_47_2; r_x9 = t_pt_3; r_vm = t_ni_3; r_4a = t_bt_3; r_75_1 = r_47_3; r_9s = t_pt_4; r_co = t_ni_4; r_0c = t_bt_4; r_9q = r_47_4; r_zy = 0x2e0000ull; r_ph = 0x2e00000000ull; r_hk = 0x2e000000000000ull; r_tw = 46u; r_hl = 0x2e0000ull; r_7a = 0x2e00000000ull; r_1y = 0x2e000000000000ull; r_if = 46u; r_uk = 0x2e0000ull; r_3d = 0x2e00000000ull; r_6w = 0x2e000000000000ull; r_93 = 46u; r_gg = 0x2e0000ull; r_zt = 0x2e00000000ull; r_m6 = 0x2e000000000000ull; r_jc = 46u; r_vw = 0x2e0000ull; r_xz = 0x2e00000000ull; goto l_std_tz; }
    t_6o_5 = (u64)((u64)ld8((a_4 + 41)) << 8ull);
    if (!(a_5 > 42ull)) { r_zo = 0x2e000000ull; r_lj = 11776ull; r_42 = 0x2e00000000000000ull; r_5r = 0x2e0000000000ull; r_pa = 0x2e000000ull; r_7p = 11776ull; r_o8 = 0x2e00000000000000ull; r_bf = 0x2e0000000000ull; r_bp = 0x2e000000ull; r_m3 = 11776ull; r_1s = 0x2e00000000000000ull; r_2r = 0x2e0000000000ull; r_pk = 0x2e000000ull; r_wb = 11776ull; r_3n = 0x2e00000000000000ull; r_bo = 0x2e0000000000ull; r_zs = 0x2e000000ull; r_v3 = t_6o_5; r_ua = t_1w_4; r_v9 = t_pq_4; r_ps = t_ed_4; r_gi = t_6o_4; r_3f = t_1w_3; r_pn = t_pq_3; r_je = t_ed_3; r_jk = t_6o_3; r_l0 = t_1w_2; r_qi = t_pq_2; r_vv = t_ed_2; r_sr = t_6o_2; r_qg = t_1w_1; r_q7 = t_pq_1; r_58 = t_ed_1; r_6f = t_6o_1; r_w2 = t_1w; r_mm = t_pq; r_0r = t_ed; r_75 = t_6o; r_fn = r_pe; r_i4 = t_pt; r_1t = t_ni; r_a1 = t_bt; r_cc = r_47; r_5r_1 = t_pt_1; r_og = t_ni_1; r_7z = t_bt_1; r_m1 = r_47_1; r_nq = t_pt_2; r_7w = t_ni_2; r_w5 = t_bt_2; r_0i = r_47_2; r_x9 = t_pt_3; r_vm = t_ni_3; r_4a = t_bt_3; r_75_1 = r_47_3; r_9s = t_pt_4; r_co = t_ni_4; r_0c = t_bt_4; r_9q = r_47_4; r_zy = 0x2e0000ull; r_ph = 0x2e00000000ull; r_hk = 0x2e000000000000ull; r_tw = 46u; r_hl = 0x2e0000ull; r_7a = 0x2e00000000ull; r_1y = 0x2e000000000000ull; r_if = 46u; r_uk = 0x2e0000ull; r_3d = 0x2e00000000ull; r_6w = 0x2e000000000000ull; r_93 = 46u; r_gg = 0x2e0000ull; r_zt = 0x2e00000000ull; r_m6 = 0x2e000000000000ull; r_jc = 46u; r_vw = 0x2e0000ull; r_xz = 0x2e00000000ull; goto l_std_tz; }
    t_pt_5 = (u64)((u64)ld8((a_4 + 42)) << 16ull);
    if (a_5 == 43ull) { r_zo = 0x2e000000ull; r_lj = 11776ull; r_42 = 0x2e00000000000000ull; r_5r = 0x2e0000000000ull; r_pa = 0x2e000000ull; r_7p = 11776ull; r_o8 = 0x2e00000000000000ull; r_bf = 0x2e0000000000ull; r_bp = 0x2e000000ull; r_m3 = 11776ull; r_1s = 0x2e00000000000000ull; r_2r = 0x2e0000000000ull; r_pk = 0x2e000000ull; r_wb = 11776ull; r_3n = 0x2e00000000000000ull; r_bo = 0x2e0000000000ull; r_zs = 0x2e000000ull; r_v3 = t_6o_5; r_ua = t_1w_4; r_v9 = t_pq_4; r_ps = t_ed_4; r_gi = t_6o_4; r_3f = t_1w_3; r_pn = t_pq_3; r_je = t_ed_3; r_jk = t_6o_3; r_l0 = t_1w_2; r_qi = t_pq_2; r_vv = t_ed_2; r_sr = t_6o_2; r_qg = t_1w_1; r_q7 = t_pq_1; r_58 = t_ed_1; r_6f = t_6o_1; r_w2 = t_1w; r_mm = t_pq; r_0r = t_ed; r_75 = t_6o; r_fn = r_pe; r_i4 = t_pt; r_1t = t_ni; r_a1 = t_bt; r_cc = r_47; r_5r_1 = t_pt_1; r_og = t_ni_1; r_7z = t_bt_1; r_m1 = r_47_1; r_nq = t_pt_2; r_7w = t_ni_2; r_w5 = t_bt_2; r_0i = r_47_2; r_x9 = t_pt_3; r_vm = t_ni_3; r_4a = t_bt_3; r_75_1 = r_47_3; r_9s = t_pt_4; r_co = t_ni_4; r_0c = t_bt_4; r_9q = r_47_4; r_zy = t_pt_5; r_ph = 0x2e00000000ull; r_hk = 0x2e000000000000ull; r_tw = 46u; r_hl = 0x2e0000ull; r_7a = 0x2e00000000ull; r_1y = 0x2e000000000000ull; r_if = 46u; r_uk = 0x2e0000ull; r_3d = 0x2e00000000ull; r_6w = 0x2e000000000000ull; r_93 = 46u; r_gg = 0x2e0000ull; r_zt = 0x2e00000000ull; r_m6 = 0x2e000000000000ull; r_jc = 46u; r_vw = 0x2e0000ull; r_xz = 0x2e00000000ull; goto l_std_tz; }
    t_ed_5 = (u64)((u64)ld8((a_4 + 43)) << 24ull);
    if (!(a_5 > 44ull)) { r_zo = 0x2e000000ull; r_lj = 11776ull; r_42 = 0x2e00000000000000ull; r_5r = 0x2e0000000000ull; r_pa = 0x2e000000ull; r_7p = 11776ull; r_o8 = 0x2e00000000000000ull; r_bf = 0x2e0000000000ull; r_bp = 0x2e000000ull; r_m3 = 11776ull; r_1s = 0x2e00000000000000ull; r_2r = 0x2e0000000000ull; r_pk = 0x2e000000ull; r_wb = 11776ull; r_3n = 0x2e00000000000000ull; r_bo = 0x2e0000000000ull; r_zs = t_ed_5; r_v3 = t_6o_5; r_ua = t_1w_4; r_v9 = t_pq_4; r_ps = t_ed_4; r_gi = t_6o_4; r_3f = t_1w_3; r_pn = t_pq_3; r_je = t_ed_3; r_jk = t_6o_3; r_l0 = t_1w_2; r_qi = t_pq_2; r_vv = t_ed_2; r_sr = t_6o_2; r_qg = t_1w_1; r_q7 = t_pq_1; r_58 = t_ed_1; r_6f = t_6o_1; r_w2 = t_1w; r_mm = t_pq; r_0r = t_ed; r_75 = t_6o; r_fn = r_pe; r_i4 = t_pt; r_1t = t_ni; r_a1 = t_bt; r_cc = r_47; r_5r_1 = t_pt_1; r_og = t_ni_1; r_7z = t_bt_1; r_m1 = r_47_1; r_nq = t_pt_2; r_7w = t_ni_2; r_w5 = t_bt_2; r_0i = r_47_2; r_x9 = t_pt_3; r_vm = t_ni_3; r_4a = t_bt_3; r_75_1 = r_47_3; r_9s = t_pt_4; r_co = t_ni_4; r_0c = t_bt_4; r_9q = r_47_4; r_zy = t_pt_5; r_ph = 0x2e00000000ull; r_hk = 0x2e000000000000ull; r_tw = 46u; r_hl = 0x2e0000ull; r_7a = 0x2e00000000ull; r_1y = 0x2e000000000000ull; r_if = 46u; r_uk = 0x2e0000ull; r_3d = 0x2e00000000ull; r_6w = 0x2e000000000000ull; r_93 = 46u; r_gg = 0x2e0000ull; r_zt = 0x2e00000000ull; r_m6 = 0x2e000000000000ull; r_jc = 46u; r_vw = 0x2e0000ull; r_xz = 0x2e00000000ull; goto l_std_tz; }
    t_ni_5 = (u64)((u64)ld8((a_4 + 44)) << 32ull);
    if (a_5 == 45ull) { r_zo = 0x2e000000ull; r_lj = 11776ull; r_42 = 0x2e00000000000000ull; r_5r = 0x2e0000000000ull; r_pa = 0x2e000000ull; r_7p = 11776ull; r_o8 = 0x2e00000000000000ull; r_bf = 0x2e0000000000ull; r_bp = 0x2e000000ull; r_m3 = 11776ull; r_1s = 0x2e00000000000000ull; r_2r = 0x2e0000000000ull; r_pk = 0x2e000000ull; r_wb = 11776ull; r_3n = 0x2e00000000000000ull; r_bo = 0x2e0000000000ull; r_zs = t_ed_5; r_v3 = t_6o_5; r_ua = t_1w_4; r_v9 = t_pq_4; r_ps = t_ed_4; r_gi = t_6o_4; r_3f = t_1w_3; r_pn = t_pq_3; r_je = t_ed_3; r_jk = t_6o_3; r_l0 = t_1w_2; r_qi = t_pq_2; r_vv = t_ed_2; r_sr = t_6o_2; r_qg = t_1w_1; r_q7 = t_pq_1; r_58 = t_ed_1; r_6f = t_6o_1; r_w2 = t_1w; r_mm = t_pq; r_0r = t_ed; r_75 = t_6o; r_fn = r_pe; r_i4 = t_pt; r_1t = t_ni; r_a1 = t_bt; r_cc = r_47; r_5r_1 = t_pt_1; r_og = t_ni_1; r_7z = t_bt_1; r_m1 = r_47_1; r_nq = t_pt_2; r_7w = t_ni_2; r_w5 = t_bt_2; r_0i = r_47_2; r_x9 = t_pt_3; r_vm = t_ni_3; r_4a = t_bt_3; r_75_1 = r_47_3; r_9s = t_pt_4; r_co = t_ni_4; r_0c = t_bt_4; r_9q = r_47_4; r_zy = t_pt_5; r_ph = t_ni_5; r_hk = 0x2e000000000000ull; r_tw = 46u; r_hl = 0x2e0000ull; r_7a = 0x2e00000000ull; r_1y = 0x2e000000000000ull; r_if = 46u; r_uk = 0x2e0000ull; r_3d = 0x2e00000000ull; r_6w = 0x2e000000000000ull; r_93 = 46u; r_gg = 0x2e0000ull; r_zt = 0x2e00000000ull; r_m6 = 0x2e000000000000ull; r_jc = 46u; r_vw = 0x2e0000ull; r_xz = 0x2e00000000ull; goto l_std_tz; }
    t_pq_5 = (u64)((u64)ld8((a_4 + 45)) << 40ull);
    if (!(a_5 > 46ull)) { r_zo = 0x2e000000ull; r_lj = 11776ull; r_42 = 0x2e00000000000000ull; r_5r = 0x2e0000000000ull; r_pa = 0x2e000000ull; r_7p = 11776ull; r_o8 = 0x2e00000000000000ull; r_bf = 0x2e0000000000ull; r_bp = 0x2e000000ull; r_m3 = 11776ull; r_1s = 0x2e00000000000000ull; r_2r = 0x2e0000000000ull; r_pk = 0x2e000000ull; r_wb = 11776ull; r_3n = 0x2e00000000000000ull; r_bo = t_pq_5; r_zs = t_ed_5; r_v3 = t_6o_5; r_ua = t_1w_4; r_v9 = t_pq_4; r_ps = t_ed_4; r_gi = t_6o_4; r_3f = t_1w_3; r_pn = t_pq_3; r_je = t_ed_3; r_jk = t_6o_3; r_l0 = t_1w_2; r_qi = t_pq_2; r_vv = t_ed_2; r_sr = t_6o_2; r_qg = t_1w_1; r_q7 = t_pq_1; r_58 = t_ed_1; r_6f = t_6o_1; r_w2 = t_1w; r_mm = t_pq; r_0r = t_ed; r_75 = t_6o; r_fn = r_pe; r_i4 = t_pt; r_1t = t_ni; r_a1 = t_bt; r_cc = r_47; r_5r_1 = t_pt_1; r_og = t_ni_1; r_7z = t_bt_1; r_m1 = r_47_1; r_nq = t_pt_2; r_7w = t_ni_2; r_w5 = t_bt_2; r_0i = r_47_2; r_x9 = t_pt_3; r_vm = t_ni_3; r_4a = t_bt_3; r_75_1 = r_47_3; r_9s = t_pt_4; r_co = t_ni_4; r_0c = t_bt_4; r_9q = r_47_4; r_zy = t_pt_5; r_ph = t_ni_5; r_hk = 0x2e000000000000ull; r_tw = 46u; r_hl = 0x2e0000ull; r_7a = 0x2e00000000ull; r_1y = 0x2e000000000000ull; r_if = 46u; r_uk = 0x2e0000ull; r_3d = 0x2e00000000ull; r_6w = 0x2e000000000000ull; r_93 = 46u; r_gg = 0x2e0000ull; r_zt = 0x2e00000000ull; r_m6 = 0x2e000000000000ull; r_jc = 46u; r_vw = 0x2e0000ull; r_xz = 0x2e00000000ull; goto l_std_tz; }
    t_bt_5 = (u64)((u64)ld8((a_4 + 46)) << 48ull);
    if (a_5 == 47ull) { r_zo = 0x2e000000ull; r_lj = 11776ull; r_42 = 0x2e00000000000000ull; r_5r = 0x2e0000000000ull; r_pa = 0x2e000000ull; r_7p = 11776ull; r_o8 = 0x2e00000000000000ull; r_bf = 0x2e0000000000ull; r_bp = 0x2e000000ull; r_m3 = 11776ull; r_1s = 0x2e00000000000000ull; r_2r = 0x2e0000000000ull; r_pk = 0x2e000000ull; r_wb = 11776ull; r_3n = 0x2e00000000000000ull; r_bo = t_pq_5; r_zs = t_ed_5; r_v3 = t_6o_5; r_ua = t_1w_4; r_v9 = t_pq_4; r_ps = t_ed_4; r_gi = t_6o_4; r_3f = t_1w_3; r_pn = t_pq_3; r_je = t_ed_3; r_jk = t_6o_3; r_l0 = t_1w_2; r_qi = t_pq_2; r_vv = t_ed_2; r_sr = t_6o_2; r_qg = t_1w_1; r_q7 = t_pq_1; r_58 = t_ed_1; r_6f = t_6o_1; r_w2 = t_1w; r_mm = t_pq; r_0r = t_ed; r_75 = t_6o; r_fn = r_pe; r_i4 = t_pt; r_1t = t_ni; r_a1 = t_bt; r_cc = r_47; r_5r_1 = t_pt_1; r_og = t_ni_1; r_7z = t_bt_1; r_m1 = r_47_1; r_nq = t_pt_2; r_7w = t_ni_2; r_w5 = t_bt_2; r_0i = r_47_2; r_x9 = t_pt_3; r_vm = t_ni_3; r_4a = t_bt_3; r_75_1 = r_47_3; r_9s = t_pt_4; r_co = t_ni_4; r_0c = t_bt_4; r_9q = r_47_4; r_zy = t_pt_5; r_ph = t_ni_5; r_hk = t_bt_5; r_tw = 46u; r_hl = 0x2e0000ull; r_7a = 0x2e00000000ull; r_1y = 0x2e000000000000ull; r_if = 46u; r_uk = 0x2e0000ull; r_3d = 0x2e00000000ull; r_6w = 0x2e000000000000ull; r_93 = 46u; r_gg = 0x2e0000ull; r_zt = 0x2e00000000ull; r_m6 = 0x2e000000000000ull; r_jc = 46u; r_vw = 0x2e0000ull; r_xz = 0x2e00000000ull; goto l_std_tz; }
    t_1w_5 = (u64)((u64)ld8((a_4 + 47)) << 56ull);
    if (!(a_5 > 48ull)) { r_zo = 0x2e000000ull; r_lj = 11776ull; r_42 = 0x2e00000000000000ull; r_5r = 0x2e0000000000ull; r_pa = 0x2e000000ull; r_7p = 11776ull; r_o8 = 0x2e00000000000000ull; r_bf = 0x2e0000000000ull; r_bp = 0x2e000000ull; r_m3 = 11776ull; r_1s = 0x2e00000000000000ull; r_2r = 0x2e0000000000ull; r_pk = 0x2e000000ull; r_wb = 11776ull; r_3n = t_1w_5; r_bo = t_pq_5; r_zs = t_ed_5; r_v3 = t_6o_5; r_ua = t_1w_4; r_v9 = t_pq_4; r_ps = t_ed_4; r_gi = t_6o_4; r_3f = t_1w_3; r_pn = t_pq_3; r_je = t_ed_3; r_jk = t_6o_3; r_l0 = t_1w_2; r_qi = t_pq_2; r_vv = t_ed_2; r_sr = t_6o_2; r_qg = t_1w_1; r_q7 = t_pq_1; r_58 = t_ed_1; r_6f = t_6o_1; r_w2 = t_1w; r_mm = t_pq; r_0r = t_ed; r_75 = t_6o; r_fn = r_pe; r_i4 = t_pt; r_1t = t_ni; r_a1 = t_bt; r_cc = r_47; r_5r_1 = t_pt_1; r_og = t_ni_1; r_7z = t_bt_1; r_m1 = r_47_1; r_nq = t_pt_2; r_7w = t_ni_2; r_w5 = t_bt_2; r_0i = r_47_2; r_x9 = t_pt_3; r_vm = t_ni_3; r_4a = t_bt_3; r_75_1 = r_47_3; r_9s = t_pt_4; r_co = t_ni_4; r_0c = t_bt_4; r_9q = r_47_4; r_zy = t_pt_5; r_ph = t_ni_5; r_hk = t_bt_5; r_tw = 46u; r_hl = 0x2e0000ull; r_7a = 0x2e00000000ull; r_1y = 0x2e000000000000ull; r_if = 46u; r_uk = 0x2e0000ull; r_3d = 0x2e00000000ull; r_6w = 0x2e000000000000ull; r_93 = 46u; r_gg = 0x2e0000ull; r_zt = 0x2e00000000ull; r_m6 = 0x2e000000000000ull; r_jc = 46u; r_vw = 0x2e0000ull; r_xz = 0x2e00000000ull; goto l_std_tz; }
    r_47_5 = ld8((a_4 + 48));
    if (a_5 == 49ull) { r_zo = 0x2e000000ull; r_lj = 11776ull; r_42 = 0x2e00000000000000ull; r_5r = 0x2e0000000000ull; r_pa = 0x2e000000ull; r_7p = 11776ull; r_o8 = 0x2e00000000000000ull; r_bf = 0x2e0000000000ull; r_bp = 0x2e000000ull; r_m3 = 11776ull; r_1s = 0x2e00000000000000ull; r_2r = 0x2e0000000000ull; r_pk = 0x2e000000ull; r_wb = 11776ull; r_3n = t_1w_5; r_bo = t_pq_5; r_zs = t_ed_5; r_v3 = t_6o_5; r_ua = t_1w_4; r_v9 = t_pq_4; r_ps = t_ed_4; r_gi = t_6o_4; r_3f = t_1w_3; r_pn = t_pq_3; r_je = t_ed_3; r_jk = t_6o_3; r_l0 = t_1w_2; r_qi = t_pq_2; r_vv = t_ed_2; r_sr = t_6o_2; r_qg = t_1w_1; r_q7 = t_pq_1; r_58 = t_ed_1; r_6f = t_6o_1; r_w2 = t_1w; r_mm = t_pq; r_0r = t_ed; r_75 = t_6o; r_fn = r_pe; r_i4 = t_pt; r_1t = t_ni; r_a1 = t_bt; r_cc = r_47; r_5r_1 = t_pt_1; r_og = t_ni_1; r_7z = t_bt_1; r_m1 = r_47_1; r_nq = t_pt_2; r_7w = t_ni_2; r_w5 = t_bt_2; r_0i = r_47_2; r_x9 = t_pt_3; r_vm = t_ni_3; r_4a = t_bt_3; r_75_1 = r_47_3; r_9s = t_pt_4; r_co = t_ni_4; r_0c = t_bt_4; r_9q = r_47_4; r_zy = t_pt_5; r_ph = t_ni_5; r_hk = t_bt_5; r_tw = r_47_5; r_hl = 0x2e0000ull; r_7a = 0x2e00000000ull; r_1y = 0x2e000000000000ull; r_if = 46u; r_uk = 0x2e0000ull; r_3d = 0x2e00000000ull; r_6w = 0x2e000000000000ull; r_93 = 46u; r_gg = 0x2e0000ull; r_zt = 0x2e00000000ull; r_m6 = 0x2e000000000000ull; r_jc = 46u; r_vw = 0x2e0000ull; r_xz = 0x2e00000000ull; goto l_std_tz; }
    t_6o_6 = (u64)((u64)ld8((a_4 + 49)) << 8ull);
    if (!(a_5 > 50ull)) { r_zo = 0x2e000000ull; r_lj = 11776ull; r_42 = 0x2e00000000000000ull; r_5r = 0x2e0000000000ull; r_pa = 0x2e000000ull; r_7p = 11776ull; r_o8 = 0x2e00000000000000ull; r_bf = 0x2e0000000000ull; r_bp = 0x2e000000ull; r_m3 = 11776ull; r_1s = 0x2e00000000000000ull; r_2r = 0x2e0000000000ull; r_pk = 0x2e000000ull; r_wb = t_6o_6; r_3n = t_1w_5; r_bo = t_pq_5; r_zs = t_ed_5; r_v3 = t_6o_5; r_ua = t_1w_4; r_v9 = t_pq_4; r_ps = t_ed_4; r_gi = t_6o_4; r_3f = t_1w_3; r_pn = t_pq_3; r_je = t_ed_3; r_jk = t_6o_3; r_l0 = t_1w_2; r_qi = t_pq_2; r_vv = t_ed_2; r_sr = t_6o_2; r_qg = t_1w_1; r_q7 = t_pq_1; r_58 = t_ed_1; r_6f = t_6o_1; r_w2 = t_1w; r_mm = t_pq; r_0r = t_ed; r_75 = t_6o; r_fn = r_pe; r_i4 = t_pt; r_1t = t_ni; r_a1 = t_bt; r_cc = r_47; r_5r_1 = t_pt_1; r_og = t_ni_1; r_7z = t_bt_1; r_m1 = r_47_1; r_nq = t_pt_2; r_7w = t_ni_2; r_w5 = t_bt_2; r_0i = r_47_2; r_x9 = t_pt_3; r_vm = t_ni_3; r_4a = t_bt_3; r_75_1 = r_47_3; r_9s = t_pt_4; r_co = t_ni_4; r_0c = t_bt_4; r_9q = r_47_4; r_zy = t_pt_5; r_ph = t_ni_5; r_hk = t_bt_5; r_tw = r_47_5; r_hl = 0x2e0000ull; r_7a = 0x2e00000000ull; r_1y = 0x2e000000000000ull; r_if = 46u; r_uk = 0x2e0000ull; r_3d = 0x2e00000000ull; r_6w = 0x2e000000000000ull; r_93 = 46u; r_gg = 0x2e0000ull; r_zt = 0x2e00000000ull; r_m6 = 0x2e000000000000ull; r_jc = 46u; r_vw = 0x2e0000ull; r_xz = 0x2e00000000ull; goto l_std_tz; }
    t_pt_6 = (u64)((u64)ld8((a_4 + 50)) << 16ull);
    if (a_5 == 51ull) { r_zo = 0x2e000000ull; r_lj = 11776ull; r_42 = 0x2e00000000000000ull; r_5r = 0x2e0000000000ull; r_pa = 0x2e000000ull; r_7p = 11776ull; r_o8 = 0x2e00000000000000ull; r_bf = 0x2e0000000000ull; r_bp = 0x2e000000ull; r_m3 = 11776ull; r_1s = 0x2e00000000000000ull; r_2r = 0x2e0000000000ull; r_pk = 0x2e000000ull; r_wb = t_6o_6; r_3n = t_1w_5; r_bo = t_pq_5; r_zs = t_ed_5; r_v3 = t_6o_5; r_ua = t_1w_4; r_v9 = t_pq_4; r_ps = t_ed_4; r_gi = t_6o_4; r_3f = t_1w_3; r_pn = t_pq_3; r_je = t_ed_3; r_jk = t_6o_3; r_l0 = t_1w_2; r_qi = t_pq_2; r_vv = t_ed_2; r_sr = t_6o_2; r_qg = t_1w_1; r_q7 = t_pq_1; r_58 = t_ed_1; r_6f = t_6o_1; r_w2 = t_1w; r_mm = t_pq; r_0r = t_ed; r_75 = t_6o; r_fn = r_pe; r_i4 = t_pt; r_1t = t_ni; r_a1 = t_bt; r_cc = r_47; r_5r_1 = t_pt_1; r_og = t_ni_1; r_7z = t_bt_1; r_m1 = r_47_1; r_nq = t_pt_2; r_7w = t_ni_2; r_w5 = t_bt_2; r_0i = r_47_2; r_x9 = t_pt_3; r_vm = t_ni_3; r_4a = t_bt_3; r_75_1 = r_47_3; r_9s = t_pt_4; r_co = t_ni_4; r_0c = t_bt_4; r_9q = r_47_4; r_zy = t_pt_5; r_ph = t_ni_5; r_hk = t_bt_5; r_tw = r_47_5; r_hl = t_pt_6; r_7a = 0x2e00000000ull; r_1y = 0x2e000000000000ull; r_if = 46u; r_uk = 0x2e0000ull; r_3d = 0x2e00000000ull; r_6w = 0x2e000000000000ull; r_93 = 46u; r_gg = 0x2e0000ull; r_zt = 0x2e00000000ull; r_m6 = 0x2e000000000000ull; r_jc = 46u; r_vw = 0x2e0000ull; r_xz = 0x2e00000000ull; goto l_std_tz; }
    t_ed_6 = (u64)((u64)ld8((a_4 + 51)) << 24ull);
    if (!(a_5 > 52ull)) { r_zo = 0x2e000000ull; r_lj = 11776ull; r_42 = 0x2e00000000000000ull; r_5r = 0x2e0000000000ull; r_pa = 0x2e000000ull; r_7p = 11776ull; r_o8 = 0x2e00000000000000ull; r_bf = 0x2e0000000000ull; r_bp = 0x2e000000ull; r_m3 = 11776ull; r_1s = 0x2e00000000000000ull; r_2r = 0x2e0000000000ull; r_pk = t_ed_6; r_wb = t_6o_6; r_3n = t_1w_5; r_bo = t_pq_5; r_zs = t_ed_5; r_v3 = t_6o_5; r_ua = t_1w_4; r_v9 = t_pq_4; r_ps = t_ed_4; r_gi = t_6o_4; r_3f = t_1w_3; r_pn = t_pq_3; r_je = t_ed_3; r_jk = t_6o_3; r_l0 = t_1w_2; r_qi = t_pq_2; r_vv = t_ed_2; r_sr = t_6o_2; r_qg = t_1w_1; r_q7 = t_pq_1; r_58 = t_ed_1; r_6f = t_6o_1; r_w2 = t_1w; r_mm = t_pq; r_0r = t_ed; r_75 = t_6o; r_fn = r_pe; r_i4 = t_pt; r_1t = t_ni; r_a1 = t_bt; r_cc = r_47; r_5r_1 = t_pt_1; r_og = t_ni_1; r_7z = t_bt_1; r_m1 = r_47_1; r_nq = t_pt_2; r_7w = t_ni_2; r_w5 = t_bt_2; r_0i = r_47_2; r_x9 = t_pt_3; r_vm = t_ni_3; r_4a = t_bt_3; r_75_1 = r_47_3; r_9s = t_pt_4; r_co = t_ni_4; r_0c = t_bt_4; r_9q = r_47_4; r_zy = t_pt_5; r_ph = t_ni_5; r_hk = t_bt_5; r_tw = r_47_5; r_hl = t_pt_6; r_7a = 0x2e00000000ull; r_1y = 0x2e000000000000ull; r_if = 46u; r_uk = 0x2e0000ull; r_3d = 0x2e00000000ull; r_6w = 0x2e000000000000ull; r_93 = 46u; r_gg = 0x2e0000ull; r_zt = 0x2e00000000ull; r_m6 = 0x2e000000000000ull; r_jc = 46u; r_vw = 0x2e0000ull; r_xz = 0x2e00000000ull; goto l_std_tz; }
    t_ni_6 = (u64)((u64)ld8((a_4 + 52)) << 32ull);
    if (a_5 == 53ull) { r_zo = 0x2e000000ull; r_lj = 11776ull; r_42 = 0x2e00000000000000ull; r_5r = 0x2e0000000000ull; r_pa = 0x2e000000ull; r_7p = 11776ull; r_o8 = 0x2e00000000000000ull; r_bf = 0x2e0000000000ull; r_bp = 0x2e000000ull; r_m3 = 11776ull; r_1s = 0x2e00000000000000ull; r_2r = 0x2e0000000000ull; r_pk = t_ed_6; r_wb = t_6o_6; r_3n = t_1w_5; r_bo = t_pq_5; r_zs = t_ed_5; r_v3 = t_6o_5; r_ua = t_1w_4; r_v9 = t_pq_4; r_ps = t_ed_4; r_gi = t_6o_4; r_3f = t_1w_3; r_pn = t_pq_3; r_je = t_ed_3; r_jk = t_6o_3; r_l0 = t_1w_2; r_qi = t_pq_2; r_vv = t_ed_2; r_sr = t_6o_2; r_qg = t_1w_1; r_q7 = t_pq_1; r_58 = t_ed_1; r_6f = t_6o_1; r_w2 = t_1w; r_mm = t_pq; r_0r = t_ed; r_75 = t_6o; r_fn = r_pe; r_i4 = t_pt; r_1t = t_ni; r_a1 = t_bt; r_cc = r_47; r_5r_1 = t_pt_1; r_og = t_ni_1; r_7z = t_bt_1; r_m1 = r_47_1; r_nq = t_pt_2; r_7w = t_ni_2; r_w5 = t_bt_2; r_0i = r_47_2; r_x9 = t_pt_3; r_vm = t_ni_3; r_4a = t_bt_3; r_75_1 = r_47_3; r_9s = t_pt_4; r_co = t_ni_4; r_0c = t_bt_4; r_9q = r_47_4; r_zy = t_pt_5; r_ph = t_ni_5; r_hk = t_bt_5; r_tw = r_47_5; r_hl = t_pt_6; r_7a = t_ni_6; r_1y = 0x2e000000000000ull; r_if = 46u; r_uk = 0x2e0000ull; r_3d = 0x2e00000000ull; r_6w = 0x2e000000000000ull; r_93 = 46u; r_gg = 0x2e0000ull; r_zt = 0x2e00000000ull; r_m6 = 0x2e000000000000ull; r_jc = 46u; r_vw = 0x2e0000ull; r_xz = 0x2e00000000ull; goto l_std_tz; }
    t_pq_6 = (u64)((u64)ld8((a_4 + 53)) << 40ull);
    if (!(a_5 > 54ull)) { r_zo = 0x2e000000ull; r_lj = 11776ull; r_42 = 0x2e00000000000000ull; r_5r = 0x2e0000000000ull; r_pa = 0x2e000000ull; r_7p = 11776ull; r_o8 = 0x2e00000000000000ull; r_bf = 0x2e0000000000ull; r_bp = 0x2e000000ull; r_m3 = 11776ull; r_1s = 0x2e00000000000000ull; r_2r = t_pq_6; r_pk = t_ed_6; r_wb = t_6o_6; r_3n = t_1w_5; r_bo = t_pq_5; r_zs = t_ed_5; r_v3 = t_6o_5; r_ua = t_1w_4; r_v9 = t_pq_4; r_ps = t_ed_4; r_gi = t_6o_4; r_3f = t_1w_3; r_pn = t_pq_3; r_je = t_ed_3; r_jk = t_6o_3; r_l0 = t_1w_2; r_qi = t_pq_2; r_vv = t_ed_2; r_sr = t_6o_2; r_qg = t_1w_1; r_q7 = t_pq_1; r_58 = t_ed_1; r_6f = t_6o_1; r_w2 = t_1w; r_mm = t_pq; r_0r = t_ed; r_75 = t_6o; r_fn = r_pe; r_i4 = t_pt; r_1t = t_ni; r_a1 = t_bt; r_cc = r_47; r_5r_1 = t_pt_1; r_og = t_ni_1; r_7z = t_bt_1; r_m1 = r_47_1; r_nq = t_pt_2; r_7w = t_ni_2; r_w5 = t_bt_2; r_0i = r_47_2; r_x9 = t_pt_3; r_vm = t_ni_3; r_4a = t_bt_3; r_75_1 = r_47_3; r_9s = t_pt_4; r_co = t_ni_4; r_0c = t_bt_4; r_9q = r_47_4; r_zy = t_pt_5; r_ph = t_ni_5; r_hk = t_bt_5; r_tw = r_47_5; r_hl = t_pt_6; r_7a = t_ni_6; r_1y = 0x2e000000000000ull; r_if = 46u; r_uk = 0x2e0000ull; r_3d = 0x2e00000000ull; r_6w = 0x2e000000000000ull; r_93 = 46u; r_gg = 0x2e0000ull; r_zt = 0x2e00000000ull; r_m6 = 0x2e000000000000ull; r_jc = 46u; r_vw = 0x2e0000ull; r_xz = 0x2e00000000ull; goto l_std_tz; }
    t_bt_6 = (u64)((u64)ld8((a_4 + 54)) << 48ull);
    if (a_5 == 55ull) { r_zo = 0x2e000000ull; r_lj = 11776ull; r_42 = 0x2e00000000000000ull; r_5r = 0x2e0000000000ull; r_pa = 0x2e000000ull; r_7p = 11776ull; r_o8 = 0x2e00000000000000ull; r_bf = 0x2e0000000000ull; r_bp = 0x2e000000ull; r_m3 = 11776ull; r_1s = 0x2e00000000000000ull; r_2r = t_pq_6; r_pk = t_ed_6; r_wb = t_6o_6; r_3n = t_1w_5; r_bo = t_pq_5; r_zs = t_ed_5; r_v3 = t_6o_5; r_ua = t_1w_4; r_v9 = t_pq_4; r_ps = t_ed_4; r_gi = t_6o_4; r_3f = t_1w_3; r_pn = t_pq_3; r_je = t_ed_3; r_jk = t_6o_3; r_l0 = t_1w_2; r_qi = t_pq_2; r_vv = t_ed_2; r_sr = t_6o_2; r_qg = t_1w_1; r_q7 = t_pq_1; r_58 = t_ed_1; r_6f = t_6o_1; r_w2 = t_1w; r_mm = t_pq; r_0r = t_ed; r_75 = t_6o; r_fn = r_pe; r_i4 = t_pt; r_1t = t_ni; r_a1 = t_bt; r_cc = r_47; r_5r_1 = t_pt_1; r_og = t_ni_1; r_7z = t_bt_1; r_m1 = r_47_1; r_nq = t_pt_2; r_7w = t_ni_2; r_w5 = t_bt_2; r_0i = r_47_2; r_x9 = t_pt_3; r_vm = t_ni_3; r_4a = t_bt_3; r_75_1 = r_47_3; r_9s = t_pt_4; r_co = t_ni_4; r_0c = t_bt_4; r_9q = r_47_4; r_zy = t_pt_5; r_ph = t_ni_5; r_hk = t_bt_5; r_tw = r_47_5; r_hl = t_pt_6; r_7a = t_ni_6; r_1y = t_bt_6; r_if = 46u; r_uk = 0x2e0000ull; r_3d = 0x2e00000000ull; r_6w = 0x2e000000000000ull; r_93 = 46u; r_gg = 0x2e0000ull; r_zt = 0x2e00000000ull; r_m6 = 0x2e000000000000ull; r_jc = 46u; r_vw = 0x2e0000ull; r_xz = 0x2e00000000ull; goto l_std_tz; }
    t_1w_6 = (u64)((u64)ld8((a_4 + 55)) << 56ull);
    if (!(a_5 > 56ull)) { r_zo = 0x2e000000ull; r_lj = 11776ull; r_42 = 0x2e00000000000000ull; r_5r = 0x2e0000000000ull; r_pa = 0x2e000000ull; r_7p = 11776ull; r_o8 = 0x2e00000000000000ull; r_bf = 0x2e0000000000ull; r_bp = 0x2e000000ull; r_m3 = 11776ull; r_1s = t_1w_6; r_2r = t_pq_6; r_pk = t_ed_6; r_wb = t_6o_6; r_3n = t_1w_5; r_bo = t_pq_5; r_zs = t_ed_5; r_v3 = t_6o_5; r_ua = t_1w_4; r_v9 = t_pq_4; r_ps = t_ed_4; r_gi = t_6o_4; r_3f = t_1w_3; r_pn = t_pq_3; r_je = t_ed_3; r_jk = t_6o_3; r_l0 = t_1w_2; r_qi = t_pq_2; r_vv = t_ed_2; r_sr = t_6o_2; r_qg = t_1w_1; r_q7 = t_pq_1; r_58 = t_ed_1; r_6f = t_6o_1; r_w2 = t_1w; r_mm = t_pq; r_0r = t_ed; r_75 = t_6o; r_fn = r_pe; r_i4 = t_pt; r_1t = t_ni; r_a1 = t_bt; r_cc = r_47; r_5r_1 = t_pt_1; r_og = t_ni_1; r_7z = t_bt_1; r_m1 = r_47_1; r_nq = t_pt_2; r_7w = t_ni_2; r_w5 = t_bt_2; r_0i = r_47_2; r_x9 = t_pt_3; r_vm = t_ni_3; r_4a = t_bt_3; r_75_1 = r_47_3; r_9s = t_pt_4; r_co = t_ni_4; r_0c = t_bt_4; r_9q = r_47_4; r_zy = t_pt_5; r_ph = t_ni_5; r_hk = t_bt_5; r_tw = r_47_5; r_hl = t_pt_6; r_7a = t_ni_6; r_1y = t_bt_6; r_if = 46u; r_uk = 0x2e0000ull; r_3d = 0x2e00000000ull; r_6w = 0x2e000000000000ull; r_93 = 46u; r_gg = 0x2e0000ull; r_zt = 0x2e00000000ull; r_m6 = 0x2e000000000000ull; r_jc = 46u; r_vw = 0x2e0000ull; r_xz = 0x2e00000000ull; goto l_std_tz; }
    r_47_6 = ld8((a_4 + 56));
    if (a_5 == 57ull) { r_zo = 0x2e000000ull; r_lj = 11776ull; r_42 = 0x2e00000000000000ull; r_5r = 0x2e0000000000ull; r_pa = 0x2e000000ull; r_7p = 11776ull; r_o8 = 0x2e00000000000000ull; r_bf = 0x2e0000000000ull; r_bp = 0x2e000000ull; r_m3 = 11776ull; r_1s = t_1w_6; r_2r = t_pq_6; r_pk = t_ed_6; r_wb = t_6o_6; r_3n = t_1w_5; r_bo = t_pq_5; r_zs = t_ed_5; r_v3 = t_6o_5; r_ua = t_1w_4; r_v9 = t_pq_4; r_ps = t_ed_4; r_gi = t_6o_4; r_3f = t_1w_3; r_pn = t_pq_3; r_je = t_ed_3; r_jk = t_6o_3; r_l0 = t_1w_2; r_qi = t_pq_2; r_vv = t_ed_2; r_sr = t_6o_2; r_qg = t_1w_1; r_q7 = t_pq_1; r_58 = t_ed_1; r_6f = t_6o_1; r_w2 = t_1w; r_mm = t_pq; r_0r = t_ed; r_75 = t_6o; r_fn = r_pe; r_i4 = t_pt; r_1t = t_ni; r_a1 = t_bt; r_cc = r_47; r_5r_1 = t_pt_1; r_og = t_ni_1; r_7z = t_bt_1; r_m1 = r_47_1; r_nq = t_pt_2; r_7w = t_ni_2; r_w5 = t_bt_2; r_0i = r_47_2; r_x9 = t_pt_3; r_vm = t_ni_3; r_4a = t_bt_3; r_75_1 = r_47_3; r_9s = t_pt_4; r_co = t_ni_4; r_0c = t_bt_4; r_9q = r_47_4; r_zy = t_pt_5; r_ph = t_ni_5; r_hk = t_bt_5; r_tw = r_47_5; r_hl = t_pt_6; r_7a = t_ni_6; r_1y = t_bt_6; r_if = r_47_6; r_uk = 0x2e0000ull; r_3d = 0x2e00000000ull; r_6w = 0x2e000000000000ull; r_93 = 46u; r_gg = 0x2e0000ull; r_zt = 0x2e00000000ull; r_m6 = 0x2e000000000000ull; r_jc = 46u; r_vw = 0x2e0000ull; r_xz = 0x2e00000000ull; goto l_std_tz; }
    t_6o_7 = (u64)((u64)ld8((a_4 + 57)) << 8ull);
    if (!(a_5 > 58ull)) { r_zo = 0x2e000000ull; r_lj = 11776ull; r_42 = 0x2e00000000000000ull; r_5r = 0x2e0000000000ull; r_pa = 0x2e000000ull; r_7p = 11776ull; r_o8 = 0x2e00000000000000ull; r_bf = 0x2e0000000000ull; r_bp = 0x2e000000ull; r_m3 = t_6o_7; r_1s = t_1w_6; r_2r = t_pq_6; r_pk = t_ed_6; r_wb = t_6o_6; r_3n = t_1w_5; r_bo = t_pq_5; r_zs = t_ed_5; r_v3 = t_6o_5; r_ua = t_1w_4; r_v9 = t_pq_4; r_ps = t_ed_4; r_gi = t_6o_4; r_3f = t_1w_3; r_pn = t_pq_3; r_je = t_ed_3; r_jk = t_6o_3; r_l0 = t_1w_2; r_qi = t_pq_2; r_vv = t_ed_2; r_sr = t_6o_2; r_qg = t_1w_1; r_q7 = t_pq_1; r_58 = t_ed_1; r_6f = t_6o_1; r_w2 = t_1w; r_mm = t_pq; r_0r = t_ed; r_75 = t_6o; r_fn = r_pe; r_i4 = t_pt; r_1t = t_ni; r_a1 = t_bt; r_cc = r_47; r_5r_1 = t_pt_1; r_og = t_ni_1; r_7z = t_bt_1; r_m1 = r_47_1; r_nq = t_pt_2; r_7w = t_ni_2; r_w5 = t_bt_2; r_0i = r_47_2; r_x9 = t_pt_3; r_vm = t_ni_3; r_4a = t_bt_3; r_75_1 = r_47_3; r_9s = t_pt_4; r_co = t_ni_4; r_0c = t_bt_4; r_9q = r_47_4; r_zy = t_pt_5; r_ph = t_ni_5; r_hk = t_bt_5; r_tw = r_47_5; r_hl = t_pt_6; r_7a = t_ni_6; r_1y = t_bt_6; r_if = r_47_6; r_uk = 0x2e0000ull; r_3d = 0x2e00000000ull; r_6w = 0x2e000000000000ull; r_93 = 46u; r_gg = 0x2e0000ull; r_zt = 0x2e00000000ull; r_m6 = 0x2e000000000000ull; r_jc = 46u; r_vw = 0x2e0000ull; r_xz = 0x2e00000000ull; goto l_std_tz; }
    t_pt_7 = (u64)((u64)ld8((a_4 + 58)) << 16ull);
    if (a_5 == 59ull) { r_zo = 0x2e000000ull; r_lj = 11776ull; r_42 = 0x2e00000000000000ull; r_5r = 0x2e0000000000ull; r_pa = 0x2e000000ull; r_7p = 11776ull; r_o8 = 0x2e00000000000000ull; r_bf = 0x2e0000000000ull; r_bp = 0x2e000000ull; r_m3 = t_6o_7; r_1s = t_1w_6; r_2r = t_pq_6; r_pk = t_ed_6; r_wb = t_6o_6; r_3n = t_1w_5; r_bo = t_pq_5; r_zs = t_ed_5; r_v3 = t_6o_5; r_ua = t_1w_4; r_v9 = t_pq_4; r_ps = t_ed_4; r_gi = t_6o_4; r_3f = t_1w_3; r_pn = t_pq_3; r_je = t_ed_3; r_jk = t_6o_3; r_l0 = t_1w_2; r_qi = t_pq_2; r_vv = t_ed_2; r_sr = t_6o_2; r_qg = t_1w_1; r_q7 = t_pq_1; r_58 = t_ed_1; r_6f = t_6o_1; r_w2 = t_1w; r_mm = t_pq; r_0r = t_ed; r_75 = t_6o; r_fn = r_pe; r_i4 = t_pt; r_1t = t_ni; r_a1 = t_bt; r_cc = r_47; r_5r_1 = t_pt_1; r_og = t_ni_1; r_7z = t_bt_1; r_m1 = r_47_1; r_nq = t_pt_2; r_7w = t_ni_2; r_w5 = t_bt_2; r_0i = r_47_2; r_x9 = t_pt_3; r_vm = t_ni_3; r_4a = t_bt_3; r_75_1 = r_47_3; r_9s = t_pt_4; r_co = t_ni_4; r_0c = t_bt_4; r_9q = r_47_4; r_zy = t_pt_5; r_ph = t_ni_5; r_hk = t_bt_5; r_tw = r_47_5; r_hl = t_pt_6; r_7a = t_ni_6; r_1y = t_bt_6; r_if = r_47_6; r_uk = t_pt_7; r_3d = 0x2e00000000ull; r_6w = 0x2e000000000000ull; r_93 = 46u; r_gg = 0x2e0000ull; r_zt = 0x2e00000000ull; r_m6 = 0x2e000000000000ull; r_jc = 46u; r_vw = 0x2e0000ull; r_xz = 0x2e00000000ull; goto l_std_tz; }
    t_ed_7 = (u64)((u64)ld8((a_4 + 59)) << 24ull);
    if (!(a_5 > 60ull)) { r_zo = 0x2e000000ull; r_lj = 11776ull; r_42 = 0x2e00000000000000ull; r_5r = 0x2e0000000000ull; r_pa = 0x2e000000ull; r_7p = 11776ull; r_o8 = 0x2e00000000000000ull; r_bf = 0x2e0000000000ull; r_bp = t_ed_7; r_m3 = t_6o_7; r_1s = t_1w_6; r_2r = t_pq_6; r_pk = t_ed_6; r_wb = t_6o_6; r_3n = t_1w_5; r_bo = t_pq_5; r_zs = t_ed_5; r_v3 = t_6o_5; r_ua = t_1w_4; r_v9 = t_pq_4; r_ps = t_ed_4; r_gi = t_6o_4; r_3f = t_1w_3; r_pn = t_pq_3; r_je = t_ed_3; r_jk = t_6o_3; r_l0 = t_1w_2; r_qi = t_pq_2; r_vv = t_ed_2; r_sr = t_6o_2; r_qg = t_1w_1; r_q7 = t_pq_1; r_58 = t_ed_1; r_6f = t_6o_1; r_w2 = t_1w; r_mm = t_pq; r_0r = t_ed; r_75 = t_6o; r_fn = r_pe; r_i4 = t_pt; r_1t = t_ni; r_a1 = t_bt; r_cc = r_47; r_5r_1 = t_pt_1; r_og = t_ni_1; r_7z = t_bt_1; r_m1 = r_47_1; r_nq = t_pt_2; r_7w = t_ni_2; r_w5 = t_bt_2; r_0i = r_47_2; r_x9 = t_pt_3; r_vm = t_ni_3; r_4a = t_bt_3; r_75_1 = r_47_3; r_9s = t_pt_4; r_co = t_ni_4; r_0c = t_bt_4; r_9q = r_47_4; r_zy = t_pt_5; r_ph = t_ni_5; r_hk = t_bt_5; r_tw = r_47_5; r_hl = t_pt_6; r_7a = t_ni_6; r_1y = t_bt_6; r_if = r_47_6; r_uk = t_pt_7; r_3d = 0x2e00000000ull; r_6w = 0x2e000000000000ull; r_93 = 46u; r_gg = 0x2e0000ull; r_zt = 0x2e00000000ull; r_m6 = 0x2e000000000000ull; r_jc = 46u; r_vw = 0x2e0000ull; r_xz = 0x2e00000000ull; goto l_std_tz; }
    t_ni_7 = (u64)((u64)ld8((a_4 + 60)) << 32ull);
    if (a_5 == 61ull) { r_zo = 0x2e000000ull; r_lj = 11776ull; r_42 = 0x2e00000000000000ull; r_5r = 0x2e0000000000ull; r_pa = 0x2e000000ull; r_7p = 11776ull; r_o8 = 0x2e00000000000000ull; r_bf = 0x2e0000000000ull; r_bp = t_ed_7; r_m3 = t_6o_7; r_1s = t_1w_6; r_2r = t_pq_6; r_pk = t_ed_6; r_wb = t_6o_6; r_3n = t_1w_5; r_bo = t_pq_5; r_zs = t_ed_5; r_v3 = t_6o_5; r_ua = t_1w_4; r_v9 = t_pq_4; r_ps = t_ed_4; r_gi = t_6o_4; r_3f = t_1w_3; r_pn = t_pq_3; r_je = t_ed_3; r_jk = t_6o_3; r_l0 = t_1w_2; r_qi = t_pq_2; r_vv = t_ed_2; r_sr = t_6o_2; r_qg = t_1w_1; r_q7 = t_pq_1; r_58 = t_ed_1; r_6f = t_6o_1; r_w2 = t_1w; r_mm = t_pq; r_0r = t_ed; r_75 = t_6o; r_fn = r_pe; r_i4 = t_pt; r_1t = t_ni; r_a1 = t_bt; r_cc = r_47; r_5r_1 = t_pt_1; r_og = t_ni_1; r_7z = t_bt_1; r_m1 = r_47_1; r_nq = t_pt_2; r_7w = t_ni_2; r_w5 = t_bt_2; r_0i = r_47_2; r_x9 = t_pt_3; r_vm = t_ni_3; r_4a = t_bt_3; r_75_1 = r_47_3; r_9s = t_pt_4; r_co = t_ni_4; r_0c = t_bt_4; r_9q = r_47_4; r_zy = t_pt_5; r_ph = t_ni_5; r_hk = t_bt_5; r_tw = r_47_5; r_hl = t_pt_6; r_7a = t_ni_6; r_1y = t_bt_6; r_if = r_47_6; r_uk = t_pt_7; r_3d = t_ni_7; r_6w = 0x2e000000000000ull; r_93 = 46u; r_gg = 0x2e0000ull; r_zt = 0x2e00000000ull; r_m6 = 0x2e000000000000ull; r_jc = 46u; r_vw = 0x2e0000ull; r_xz = 0x2e00000000ull; goto l_std_tz; }
    t_pq_7 = (u64)((u64)ld8((a_4 + 61)) << 40ull);
    if (!(a_5 > 62ull)) { r_zo = 0x2e000000ull; r_lj = 11776ull; r_42 = 0x2e00000000000000ull; r_5r = 0x2e0000000000ull; r_pa = 0x2e000000ull; r_7p = 11776ull; r_o8 = 0x2e00000000000000ull; r_bf = t_pq_7; r_bp = t_ed_7; r_m3 = t_6o_7; r_1s = t_1w_6; r_2r = t_pq_6; r_pk = t_ed_6; r_wb = t_6o_6; r_3n = t_1w_5; r_bo = t_pq_5; r_zs = t_ed_5; r_v3 = t_6o_5; r_ua = t_1w_4; r_v9 = t_pq_4; r_ps = t_ed_4; r_gi = t_6o_4; r_3f = t_1w_3; r_pn = t_pq_3; r_je = t_ed_3; r_jk = t_6o_3; r_l0 = t_1w_2; r_qi = t_pq_2; r_vv = t_ed_2; r_sr = t_6o_2; r_qg = t_1w_1; r_q7 = t_pq_1; r_58 = t_ed_1; r_6f = t_6o_1; r_w2 = t_1w; r_mm = t_pq; r_0r = t_ed; r_75 = t_6o; r_fn = r_pe; r_i4 = t_pt; r_1t = t_ni; r_a1 = t_bt; r_cc = r_47; r_5r_1 = t_pt_1; r_og = t_ni_1; r_7z = t_bt_1; r_m1 = r_47_1; r_nq = t_pt_2; r_7w = t_ni_2; r_w5 = t_bt_2; r_0i = r_47_2; r_x9 = t_pt_3; r_vm = t_ni_3; r_4a = t_bt_3; r_75_1 = r_47_3; r_9s = t_pt_4; r_co = t_ni_4; r_0c = t_bt_4; r_9q = r_47_4; r_zy = t_pt_5; r_ph = t_ni_5; r_hk = t_bt_5; r_tw = r_47_5; r_hl = t_pt_6; r_7a = t_ni_6; r_1y = t_bt_6; r_if = r_47_6; r_uk = t_pt_7; r_3d = t_ni_7; r_6w = 0x2e000000000000ull; r_93 = 46u; r_gg = 0x2e0000ull; r_zt = 0x2e00000000ull; r_m6 = 0x2e000000000000ull; r_jc = 46u; r_vw = 0x2e0000ull; r_xz = 0x2e00000000ull; goto l_std_tz; }
    t_bt_7 = (u64)((u64)ld8((a_4 + 62)) << 48ull);
    if (a_5 == 63ull) { r_zo = 0x2e000000ull; r_lj = 11776ull; r_42 = 0x2e00000000000000ull; r_5r = 0x2e0000000000ull; r_pa = 0x2e000000ull; r_7p = 11776ull; r_o8 = 0x2e00000000000000ull; r_bf = t_pq_7; r_bp = t_ed_7; r_m3 = t_6o_7; r_1s = t_1w_6; r_2r = t_pq_6; r_pk = t_ed_6; r_wb = t_6o_6; r_3n = t_1w_5; r_bo = t_pq_5; r_zs = t_ed_5; r_v3 = t_6o_5; r_ua = t_1w_4; r_v9 = t_pq_4; r_ps = t_ed_4; r_gi = t_6o_4; r_3f = t_1w_3; r_pn = t_pq_3; r_je = t_ed_3; r_jk = t_6o_3; r_l0 = t_1w_2; r_qi = t_pq_2; r_vv = t_ed_2; r_sr = t_6o_2; r_qg = t_1w_1; r_q7 = t_pq_1; r_58 = t_ed_1; r_6f = t_6o_1; r_w2 = t_1w; r_mm = t_pq; r_0r = t_ed; r_75 = t_6o; r_fn = r_pe; r_i4 = t_pt; r_1t = t_ni; r_a1 = t_bt; r_cc = r_47; r_5r_1 = t_pt_1; r_og = t_ni_1; r_7z = t_bt_1; r_m1 = r_47_1; r_nq = t_pt_2; r_7w = t_ni_2; r_w5 = t_bt_2; r_0i = r_47_2; r_x9 = t_pt_3; r_vm = t_ni_3; r_4a = t_bt_3; r_75_1 = r_47_3; r_9s = t_pt_4; r_co = t_ni_4; r_0c = t_bt_4; r_9q = r_47_4; r_zy = t_pt_5; r_ph = t_ni_5; r_hk = t_bt_5; r_tw = r_47_5; r_hl = t_pt_6; r_7a = t_ni_6; r_1y = t_bt_6; r_if = r_47_6; r_uk = t_pt_7; r_3d = t_ni_7; r_6w = t_bt_7; r_93 = 46u; r_gg = 0x2e0000ull; r_zt = 0x2e00000000ull; r_m6 = 0x2e000000000000ull; r_jc = 46u; r_vw = 0x2e0000ull; r_xz = 0x2e00000000ull; goto l_std_tz; }
    t_1w_7 = (u64)((u64)ld8((a_4 + 63)) << 56ull);
    if (!(a_5 > 64ull)) { r_zo = 0x2e000000ull; r_lj = 11776ull; r_42 = 0x2e00000000000000ull; r_5r = 0x2e0000000000ull; r_pa = 0x2e000000ull; r_7p = 11776ull; r_o8 = t_1w_7; r_bf = t_pq_7; r_bp = t_ed_7; r_m3 = t_6o_7; r_1s = t_1w_6; r_2r = t_pq_6; r_pk = t_ed_6; r_wb = t_6o_6; r_3n = t_1w_5; r_bo = t_pq_5; r_zs = t_ed_5; r_v3 = t_6o_5; r_ua = t_1w_4; r_v9 = t_pq_4; r_ps = t_ed_4; r_gi = t_6o_4; r_3f = t_1w_3; r_pn = t_pq_3; r_je = t_ed_3; r_jk = t_6o_3; r_l0 = t_1w_2; r_qi = t_pq_2; r_vv = t_ed_2; r_sr = t_6o_2; r_qg = t_1w_1; r_q7 = t_pq_1; r_58 = t_ed_1; r_6f = t_6o_1; r_w2 = t_1w; r_mm = t_pq; r_0r = t_ed; r_75 = t_6o; r_fn = r_pe; r_i4 = t_pt; r_1t = t_ni; r_a1 = t_bt; r_cc = r_47; r_5r_1 = t_pt_1; r_og = t_ni_1; r_7z = t_bt_1; r_m1 = r_47_1; r_nq = t_pt_2; r_7w = t_ni_2; r_w5 = t_bt_2; r_0i = r_47_2; r_x9 = t_pt_3; r_vm = t_ni_3; r_4a = t_bt_3; r_75_1 = r_47_3; r_9s = t_pt_4; r_co = t_ni_4; r_0c = t_bt_4; r_9q = r_47_4; r_zy = t_pt_5; r_ph = t_ni_5; r_hk = t_bt_5; r_tw = r_47_5; r_hl = t_pt_6; r_7a = t_ni_6; r_1y = t_bt_6; r_if = r_47_6; r_uk = t_pt_7; r_3d = t_ni_7; r_6w = t_bt_7; r_93 = 46u; r_gg = 0x2e0000ull; r_zt = 0x2e00000000ull; r_m6 = 0x2e000000000000ull; r_jc = 46u; r_vw = 0x2e0000ull; r_xz = 0x2e00000000ull; goto l_std_tz; }
    r_47_7 = ld8((a_4 + 64));
    if (a_5 == 65ull) { r_zo = 0x2e000000ull; r_lj = 11776ull; r_42 = 0x2e00000000000000ull; r_5r = 0x2e0000000000ull; r_pa = 0x2e000000ull; r_7p = 11776ull; r_o8 = t_1w_7; r_bf = t_pq_7; r_bp = t_ed_7; r_m3 = t_6o_7; r_1s = t_1w_6; r_2r = t_pq_6; r_pk = t_ed_6; r_wb = t_6o_6; r_3n = t_1w_5; r_bo = t_pq_5; r_zs = t_ed_5; r_v3 = t_6o_5; r_ua = t_1w_4; r_v9 = t_pq_4; r_ps = t_ed_4; r_gi = t_6o_4; r_3f = t_1w_3; r_pn = t_pq_3; r_je = t_ed_3; r_jk = t_6o_3; r_l0 = t_1w_2; r_qi = t_pq_2; r_vv = t_ed_2; r_sr = t_6o_2; r_qg = t_1w_1; r_q7 = t_pq_1; r_58 = t_ed_1; r_6f = t_6o_1; r_w2 = t_1w; r_mm = t_pq; r_0r = t_ed; r_75 = t_6o; r_fn = r_pe; r_i4 = t_pt; r_1t = t_ni; r_a1 = t_bt; r_cc = r_47; r_5r_1 = t_pt_1; r_og = t_ni_1; r_7z = t_bt_1; r_m1 = r_47_1; r_nq = t_pt_2; r_7w = t_ni_2; r_w5 = t_bt_2; r_0i = r_47_2; r_x9 = t_pt_3; r_vm = t_ni_3; r_4a = t_bt_3; r_75_1 = r_47_3; r_9s = t_pt_4; r_co = t_ni_4; r_0c = t_bt_4; r_9q = r_47_4; r_zy = t_pt_5; r_ph = t_ni_5; r_hk = t_bt_5; r_tw = r_47_5; r_hl = t_pt_6; r_7a = t_ni_6; r_1y = t_bt_6; r_if = r_47_6; r_uk = t_pt_7; r_3d = t_ni_7; r_6w = t_bt_7; r_93 = r_47_7; r_gg = 0x2e0000ull; r_zt = 0x2e00000000ull; r_m6 = 0x2e000000000000ull; r_jc = 46u; r_vw = 0x2e0000ull; r_xz = 0x2e00000000ull; goto l_std_tz; }
    t_6o_8 = (u64)((u64)ld8((a_4 + 65)) << 8ull);
    if (!(a_5 > 66ull)) { r_zo = 0x2e000000ull; r_lj = 11776ull; r_42 = 0x2e00000000000000ull; r_5r = 0x2e0000000000ull; r_pa = 0x2e000000ull; r_7p = t_6o_8; r_o8 = t_1w_7; r_bf = t_pq_7; r_bp = t_ed_7; r_m3 = t_6o_7; r_1s = t_1w_6; r_2r = t_pq_6; r_pk = t_ed_6; r_wb = t_6o_6; r_3n = t_1w_5; r_bo = t_pq_5; r_zs = t_ed_5; r_v3 = t_6o_5; r_ua = t_1w_4; r_v9 = t_pq_4; r_ps = t_ed_4; r_gi = t_6o_4; r_3f = t_1w_3; r_pn = t_pq_3; r_je = t_ed_3; r_jk = t_6o_3; r_l0 = t_1w_2; r_qi = t_pq_2; r_vv = t_ed_2; r_sr = t_6o_2; r_qg = t_1w_1; r_q7 = t_pq_1; r_58 = t_ed_1; r_6f = t_6o_1; r_w2 = t_1w; r_mm = t_pq; r_0r = t_ed; r_75 = t_6o; r_fn = r_pe; r_i4 = t_pt; r_1t = t_ni; r_a1 = t_bt; r_cc = r_47; r_5r_1 = t_pt_1; r_og = t_ni_1; r_7z = t_bt_1; r_m1 = r_47_1; r_nq = t_pt_2; r_7w = t_ni_2; r_w5 = t_bt_2; r_0i = r_47_2; r_x9 = t_pt_3; r_vm = t_ni_3; r_4a = t_bt_3; r_75_1 = r_47_3; r_9s = t_pt_4; r_co = t_ni_4; r_0c = t_bt_4; r_9q = r_47_4; r_zy = t_pt_5; r_ph = t_ni_5; r_hk = t_bt_5; r_tw = r_47_5; r_hl = t_pt_6; r_7a = t_ni_6; r_1y = t_bt_6; r_if = r_47_6; r_uk = t_pt_7; r_3d = t_ni_7; r_6w = t_bt_7; r_93 = r_47_7; r_gg = 0x2e0000ull; r_zt = 0x2e00000000ull; r_m6 = 0x2e000000000000ull; r_jc = 46u; r_vw = 0x2e0000ull; r_xz = 0x2e00000000ull; goto l_std_tz; }
    t_pt_8 = (u64)((u64)ld8((a_4 + 66)) << 16ull);
    if (a_5 == 67ull) { r_zo = 0x2e000000ull; r_lj = 11776ull; r_42 = 0x2e00000000000000ull; r_5r = 0x2e0000000000ull; r_pa = 0x2e000000ull; r_7p = t_6o_8; r_o8 = t_1w_7; r_bf = t_pq_7; r_bp = t_ed_7; r_m3 = t_6o_7; r_1s = t_1w_6; r_2r = t_pq_6; r_pk = t_ed_6; r_wb = t_6o_6; r_3n = t_1w_5; r_bo = t_pq_5; r_zs = t_ed_5; r_v3 = t_6o_5; r_ua = t_1w_4; r_v9 = t_pq_4; r_ps = t_ed_4; r_gi = t_6o_4; r_3f = t_1w_3; r_pn = t_pq_3; r_je = t_ed_3; r_jk = t_6o_3; r_l0 = t_1w_2; r_qi = t_pq_2; r_vv = t_ed_2; r_sr = t_6o_2; r_qg = t_1w_1; r_q7 = t_pq_1; r_58 = t_ed_1; r_6f = t_6o_1; r_w2 = t_1w; r_mm = t_pq; r_0r = t_ed; r_75 = t_6o; r_fn = r_pe; r_i4 = t_pt; r_1t = t_ni; r_a1 = t_bt; r_cc = r_47; r_5r_1 = t_pt_1; r_og = t_ni_1; r_7z = t_bt_1; r_m1 = r_47_1; r_nq = t_pt_2; r_7w = t_ni_2; r_w5 = t_bt_2; r_0i = r_47_2; r_x9 = t_pt_3; r_vm = t_ni_3; r_4a = t_bt_3; r_75_1 = r_47_3; r_9s = t_pt_4; r_co = t_ni_4; r_0c = t_bt_4; r_9q = r_47_4; r_zy = t_pt_5; r_ph = t_ni_5; r_hk = t_bt_5; r_tw = r_47_5; r_hl = t_pt_6; r_7a = t_ni_6; r_1y = t_bt_6; r_if = r_47_6; r_uk = t_pt_7; r_3d = t_ni_7; r_6w = t_bt_7; r_93 = r_47_7; r_gg = t_pt_8; r_zt = 0x2e00000000ull; r_m6 = 0x2e000000000000ull; r_jc = 46u; r_vw = 0x2e0000ull; r_xz = 0x2e00000000ull; goto l_std_tz; }
    t_ed_8 = (u64)((u64)ld8((a_4 + 67)) << 24ull);
    if (!(a_5 > 68ull)) { r_zo = 0x2e000000ull; r_lj = 11776ull; r_42 = 0x2e00000000000000ull; r_5r = 0x2e0000000000ull; r_pa = t_ed_8; r_7p = t_6o_8; r_o8 = t_1w_7; r_bf = t_pq_7; r_bp = t_ed_7; r_m3 = t_6o_7; r_1s = t_1w_6; r_2r = t_pq_6; r_pk = t_ed_6; r_wb = t_6o_6; r_3n = t_1w_5; r_bo = t_pq_5; r_zs = t_ed_5; r_v3 = t_6o_5; r_ua = t_1w_4; r_v9 = t_pq_4; r_ps = t_ed_4; r_gi = t_6o_4; r_3f = t_1w_3; r_pn = t_pq_3; r_je = t_ed_3; r_jk = t_6o_3; r_l0 = t_1w_2; r_qi = t_pq_2; r_vv = t_ed_2; r_sr = t_6o_2; r_qg = t_1w_1; r_q7 = t_pq_1; r_58 = t_ed_1; r_6f = t_6o_1; r_w2 = t_1w; r_mm = t_pq; r_0r = t_ed; r_75 = t_6o; r_fn = r_pe; r_i4 = t_pt; r_1t = t_ni; r_a1 = t_bt; r_cc = r_47; r_5r_1 = t_pt_1; r_og = t_ni_1; r_7z = t_bt_1; r_m1 = r_47_1; r_nq = t_pt_2; r_7w = t_ni_2; r_w5 = t_bt_2; r_0i = r_47_2; r_x9 = t_pt_3; r_vm = t_ni_3; r_4a = t_bt_3; r_75_1 = r_47_3; r_9s = t_pt_4; r_co = t_ni_4; r_0c = t_bt_4; r_9q = r_47_4; r_zy = t_pt_5; r_ph = t_ni_5; r_hk = t_bt_5; r_tw = r_47_5; r_hl = t_pt_6; r_7a = t_ni_6; r_1y = t_bt_6; r_if = r_47_6; r_uk = t_pt_7; r_3d = t_ni_7; r_6w = t_bt_7; r_93 = r_47_7; r_gg = t_pt_8; r_zt = 0x2e00000000ull; r_m6 = 0x2e000000000000ull; r_jc = 46u; r_vw = 0x2e0000ull; r_xz = 0x2e00000000ull; goto l_std_tz; }
    t_ni_8 = (u64)((u64)ld8((a_4 + 68)) << 32ull);
    if (a_5 == 69ull) { r_zo = 0x2e000000ull; r_lj = 11776ull; r_42 = 0x2e00000000000000ull; r_5r = 0x2e0000000000ull; r_pa = t_ed_8; r_7p = t_6o_8; r_o8 = t_1w_7; r_bf = t_pq_7; r_bp = t_ed_7; r_m3 = t_6o_7; r_1s = t_1w_6; r_2r = t_pq_6; r_pk = t_ed_6; r_wb = t_6o_6; r_3n = t_1w_5; r_bo = t_pq_5; r_zs = t_ed_5; r_v3 = t_6o_5; r_ua = t_1w_4; r_v9 = t_pq_4; r_ps = t_ed_4; r_gi = t_6o_4; r_3f = t_1w_3; r_pn = t_pq_3; r_je = t_ed_3; r_jk = t_6o_3; r_l0 = t_1w_2; r_qi = t_pq_2; r_vv = t_ed_2; r_sr = t_6o_2; r_qg = t_1w_1; r_q7 = t_pq_1; r_58 = t_ed_1; r_6f = t_6o_1; r_w2 = t_1w; r_mm = t_pq; r_0r = t_ed; r_75 = t_6o; r_fn = r_pe; r_i4 = t_pt; r_1t = t_ni; r_a1 = t_bt; r_cc = r_47; r_5r_1 = t_pt_1; r_og = t_ni_1; r_7z = t_bt_1; r_m1 = r_47_1; r_nq = t_pt_2; r_7w = t_ni_2; r_w5 = t_bt_2; r_0i = r_47_2; r_x9 = t_pt_3; r_vm = t_ni_3; r_4a = t_bt_3; r_75_1 = r_47_3; r_9s = t_pt_4; r_co = t_ni_4; r_0c = t_bt_4; r_9q = r_47_4; r_zy = t_pt_5; r_ph = t_ni_5; r_hk = t_bt_5; r_tw = r_47_5; r_hl = t_pt_6; r_7a = t_ni_6; r_1y = t_bt_6; r_if = r_47_6; r_uk = t_pt_7; r_3d = t_ni_7; r_6w = t_bt_7; r_93 = r_47_7; r_gg = t_pt_8; r_zt = t_ni_8; r_m6 = 0x2e000000000000ull; r_jc = 46u; r_vw = 0x2e0000ull; r_xz = 0x2e00000000ull; goto l_std_tz; }
    t_pq_8 = (u64)((u64)ld8((a_4 + 69)) << 40ull);
    if (!(a_5 > 70ull)) { r_zo = 0x2e000000ull; r_lj = 11776ull; r_42 = 0x2e00000000000000ull; r_5r = t_pq_8; r_pa = t_ed_8; r_7p = t_6o_8; r_o8 = t_1w_7; r_bf = t_pq_7; r_bp = t_ed_7; r_m3 = t_6o_7; r_1s = t_1w_6; r_2r = t_pq_6; r_pk = t_ed_6; r_wb = t_6o_6; r_3n = t_1w_5; r_bo = t_pq_5; r_zs = t_ed_5; r_v3 = t_6o_5; r_ua = t_1w_4; r_v9 = t_pq_4; r_ps = t_ed_4; r_gi = t_6o_4; r_3f = t_1w_3; r_pn = t_pq_3; r_je = t_ed_3; r_jk = t_6o_3; r_l0 = t_1w_2; r_qi = t_pq_2; r_vv = t_ed_2; r_sr = t_6o_2; r_qg = t_1w_1; r_q7 = t_pq_1; r_58 = t_ed_1; r_6f = t_6o_1; r_w2 = t_1w; r_mm = t_pq; r_0r = t_ed; r_75 = t_6o; r_fn = r_pe; r_i4 = t_pt; r_1t = t_ni; r_a1 = t_bt; r_cc = r_47; r_5r_1 = t_pt_1; r_og = t_ni_1; r_7z = t_bt_1; r_m1 = r_47_1; r_nq = t_pt_2; r_7w = t_ni_2; r_w5 = t_bt_2; r_0i = r_47_2; r_x9 = t_pt_3; r_vm = t_ni_3; r_4a = t_bt_3; r_75_1 = r_47_3; r_9s = t_pt_4; r_co = t_ni_4; r_0c = t_bt_4; r_9q = r_47_4; r_zy = t_pt_5; r_ph = t_ni_5; r_hk = t_bt_5; r_tw = r_47_5; r_hl = t_pt_6; r_7a = t_ni_6; r_1y = t_bt_6; r_if = r_47_6; r_uk = t_pt_7; r_3d = t_ni_7; r_6w = t_bt_7; r_93 = r_47_7; r_gg = t_pt_8; r_zt = t_ni_8; r_m6 = 0x2e000000000000ull; r_jc = 46u; r_vw = 0x2e0000ull; r_xz = 0x2e00000000ull; goto l_std_tz; }
    t_bt_8 = (u64)((u64)ld8((a_4 + 70)) << 48ull);
    if (a_5 == 71ull) { r_zo = 0x2e000000ull; r_lj = 11776ull; r_42 = 0x2e00000000000000ull; r_5r = t_pq_8; r_pa = t_ed_8; r_7p = t_6o_8; r_o8 = t_1w_7; r_bf = t_pq_7; r_bp = t_ed_7; r_m3 = t_6o_7; r_1s = t_1w_6; r_2r = t_pq_6; r_pk = t_ed_6; r_wb = t_6o_6; r_3n = t_1w_5; r_bo = t_pq_5; r_zs = t_ed_5; r_v3 = t_6o_5; r_ua = t_1w_4; r_v9 = t_pq_4; r_ps = t_ed_4; r_gi = t_6o_4; r_3f = t_1w_3; r_pn = t_pq_3; r_je = t_ed_3; r_jk = t_6o_3; r_l0 = t_1w_2; r_qi = t_pq_2; r_vv = t_ed_2; r_sr = t_6o_2; r_qg = t_1w_1; r_q7 = t_pq_1; r_58 = t_ed_1; r_6f = t_6o_1; r_w2 = t_1w; r_mm = t_pq; r_0r = t_ed; r_75 = t_6o; r_fn = r_pe; r_i4 = t_pt; r_1t = t_ni; r_a1 = t_bt; r_cc = r_47; r_5r_1 = t_pt_1; r_og = t_ni_1; r_7z = t_bt_1; r_m1 = r_47_1; r_nq = t_pt_2; r_7w = t_ni_2; r_w5 = t_bt_2; r_0i = r_47_2; r_x9 = t_pt_3; r_vm = t_ni_3; r_4a = t_bt_3; r_75_1 = r_47_3; r_9s = t_pt_4; r_co = t_ni_4; r_0c = t_bt_4; r_9q = r_47_4; r_zy = t_pt_5; r_ph = t_ni_5; r_hk = t_bt_5; r_tw = r_47_5; r_hl = t_pt_6; r_7a = t_ni_6; r_1y = t_bt_6; r_if = r_47_6; r_uk = t_pt_7; r_3d = t_ni_7; r_6w = t_bt_7; r_93 = r_47_7; r_gg = t_pt_8; r_zt = t_ni_8; r_m6 = t_bt_8; r_jc = 46u; r_vw = 0x2e0000ull; r_xz = 0x2e00000000ull; goto l_std_tz; }
    t_1w_8 = (u64)((u64)ld8((a_4 + 71)) << 56ull);
    if (!(a_5 > 72ull)) { r_zo = 0x2e000000ull; r_lj = 11776ull; r_42 = t_1w_8; r_5r = t_pq_8; r_pa = t_ed_8; r_7p = t_6o_8; r_o8 = t_1w_7; r_bf = t_pq_7; r_bp = t_ed_7; r_m3 = t_6o_7; r_1s = t_1w_6; r_2r = t_pq_6; r_pk = t_ed_6; r_wb = t_6o_6; r_3n = t_1w_5; r_bo = t_pq_5; r_zs = t_ed_5; r_v3 = t_6o_5; r_ua = t_1w_4; r_v9 = t_pq_4; r_ps = t_ed_4; r_gi = t_6o_4; r_3f = t_1w_3; r_pn = t_pq_3; r_je = t_ed_3; r_jk = t_6o_3; r_l0 = t_1w_2; r_qi = t_pq_2; r_vv = t_ed_2; r_sr = t_6o_2; r_qg = t_1w_1; r_q7 = t_pq_1; r_58 = t_ed_1; r_6f = t_6o_1; r_w2 = t_1w; r_mm = t_pq; r_0r = t_ed; r_75 = t_6o; r_fn = r_pe; r_i4 = t_pt; r_1t = t_ni; r_a1 = t_bt; r_cc = r_47; r_5r_1 = t_pt_1; r_og = t_ni_1; r_7z = t_bt_1; r_m1 = r_47_1; r_nq = t_pt_2; r_7w = t_ni_2; r_w5 = t_bt_2; r_0i = r_47_2; r_x9 = t_pt_3; r_vm = t_ni_3; r_4a = t_bt_3; r_75_1 = r_47_3; r_9s = t_pt_4; r_co = t_ni_4; r_0c = t_bt_4; r_9q = r_47_4; r_zy = t_pt_5; r_ph = t_ni_5; r_hk = t_bt_5; r_tw = r_47_5; r_hl = t_pt_6; r_7a = t_ni_6; r_1y = t_bt_6; r_if = r_47_6; r_uk = t_pt_7; r_3d = t_ni_7; r_6w = t_bt_7; r_93 = r_47_7; r_gg = t_pt_8; r_zt = t_ni_8; r_m6 = t_bt_8; r_jc = 46u; r_vw = 0x2e0000ull; r_xz = 0x2e00000000ull; goto l_std_tz; }
    r_47_8 = ld8((a_4 + 72));
    if (a_5 == 73ull) { r_zo = 0x2e000000ull; r_lj = 11776ull; r_42 = t_1w_8; r_5r = t_pq_8; r_pa = t_ed_8; r_7p = t_6o_8; r_o8 = t_1w_7; r_bf = t_pq_7; r_bp = t_ed_7; r_m3 = t_6o_7; r_1s = t_1w_6; r_2r = t_pq_6; r_pk = t_ed_6; r_wb = t_6o_6; r_3n = t_1w_5; r_bo = t_pq_5; r_zs = t_ed_5; r_v3 = t_6o_5; r_ua = t_1w_4; r_v9 = t_pq_4; r_ps = t_ed_4; r_gi = t_6o_4; r_3f = t_1w_3; r_pn = t_pq_3; r_je = t_ed_3; r_jk = t_6o_3; r_l0 = t_1w_2; r_qi = t_pq_2; r_vv = t_ed_2; r_sr = t_6o_2; r_qg = t_1w_1; r_q7 = t_pq_1; r_58 = t_ed_1; r_6f = t_6o_1; r_w2 = t_1w; r_mm = t_pq; r_0r = t_ed; r_75 = t_6o; r_fn = r_pe; r_i4 = t_pt; r_1t = t_ni; r_a1 = t_bt; r_cc = r_47; r_5r_1 = t_pt_1; r_og = t_ni_1; r_7z = t_bt_1; r_m1 = r_47_1; r_nq = t_pt_2; r_7w = t_ni_2; r_w5 = t_bt_2; r_0i = r_47_2; r_x9 = t_pt_3; r_vm = t_ni_3; r_4a = t_bt_3; r_75_1 = r_47_3; r_9s = t_pt_4; r_co = t_ni_4; r_0c = t_bt_4; r_9q = r_47_4; r_zy = t_pt_5; r_ph = t_ni_5; r_hk = t_bt_5; r_tw = r_47_5; r_hl = t_pt_6; r_7a = t_ni_6; r_1y = t_bt_6; r_if = r_47_6; r_uk = t_pt_7; r_3d = t_ni_7; r_6w = t_bt_7; r_93 = r_47_7; r_gg = t_pt_8; r_zt = t_ni_8; r_m6 = t_bt_8; r_jc = r_47_8; r_vw = 0x2e0000ull; r_xz = 0x2e00000000ull; goto l_std_tz; }
    t_6o_9 = (u64)((u64)ld8((a_4 + 73)) << 8ull);
    if (!(a_5 > 74ull)) { r_zo = 0x2e000000ull; r_lj = t_6o_9; r_42 = t_1w_8; r_5r = t_pq_8; r_pa = t_ed_8; r_7p = t_6o_8; r_o8 = t_1w_7; r_bf = t_pq_7; r_bp = t_ed_7; r_m3 = t_6o_7; r_1s = t_1w_6; r_2r = t_pq_6; r_pk = t_ed_6; r_wb = t_6o_6; r_3n = t_1w_5; r_bo = t_pq_5; r_zs = t_ed_5; r_v3 = t_6o_5; r_ua = t_1w_4; r_v9 = t_pq_4; r_ps = t_ed_4; r_gi = t_6o_4; r_3f = t_1w_3; r_pn = t_pq_3; r_je = t_ed_3; r_jk = t_6o_3; r_l0 = t_1w_2; r_qi = t_pq_2; r_vv = t_ed_2; r_sr = t_6o_2; r_qg = t_1w_1; r_q7 = t_pq_1; r_58 = t_ed_1; r_6f = t_6o_1; r_w2 = t_1w; r_mm = t_pq; r_0r = t_ed; r_75 = t_6o; r_fn = r_pe; r_i4 = t_pt; r_1t = t_ni; r_a1 = t_bt; r_cc = r_47; r_5r_1 = t_pt_1; r_og = t_ni_1; r_7z = t_bt_1; r_m1 = r_47_1; r_nq = t_pt_2; r_7w = t_ni_2; r_w5 = t_bt_2; r_0i = r_47_2; r_x9 = t_pt_3; r_vm = t_ni_3; r_4a = t_bt_3; r_75_1 = r_47_3; r_9s = t_pt_4; r_co = t_ni_4; r_0c = t_bt_4; r_9q = r_47_4; r_zy = t_pt_5; r_ph = t_ni_5; r_hk = t_bt_5; r_tw = r_47_5; r_hl = t_pt_6; r_7a = t_ni_6; r_1y = t_bt_6; r_if = r_47_6; r_uk = t_pt_7; r_3d = t_ni_7; r_6w = t_bt_7; r_93 = r_47_7; r_gg = t_pt_8; r_zt = t_ni_8; r_m6 = t_bt_8; r_jc = r_47_8; r_vw = 0x2e0000ull; r_xz = 0x2e00000000ull; goto l_std_tz; }
    t_pt_9 = (u64)((u64)ld8((a_4 + 74)) << 16ull);
    if (a_5 == 75ull) { r_zo = 0x2e000000ull; r_lj = t_6o_9; r_42 = t_1w_8; r_5r = t_pq_8; r_pa = t_ed_8; r_7p = t_6o_8; r_o8 = t_1w_7; r_bf = t_pq_7; r_bp = t_ed_7; r_m3 = t_6o_7; r_1s = t_1w_6; r_2r = t_pq_6; r_pk = t_ed_6; r_wb = t_6o_6; r_3n = t_1w_5; r_bo = t_pq_5; r_zs = t_ed_5; r_v3 = t_6o_5; r_ua = t_1w_4; r_v9 = t_pq_4; r_ps = t_ed_4; r_gi = t_6o_4; r_3f = t_1w_3; r_pn = t_pq_3; r_je = t_ed_3; r_jk = t_6o_3; r_l0 = t_1w_2; r_qi = t_pq_2; r_vv = t_ed_2; r_sr = t_6o_2; r_qg = t_1w_1; r_q7 = t_pq_1; r_58 = t_ed_1; r_6f = t_6o_1; r_w2 = t_1w; r_mm = t_pq; r_0r = t_ed; r_75 = t_6o; r_fn = r_pe; r_i4 = t_pt; r_1t = t_ni; r_a1 = t_bt; r_cc = r_47; r_5r_1 = t_pt_1; r_og = t_ni_1; r_7z = t_bt_1; r_m1 = r_47_1; r_nq = t_pt_2; r_7w = t_ni_2; r_w5 = t_bt_2; r_0i = r_47_2; r_x9 = t_pt_3; r_vm = t_ni_3; r_4a = t_bt_3; r_75_1 = r_47_3; r_9s = t_pt_4; r_co = t_ni_4; r_0c = t_bt_4; r_9q = r_47_4; r_zy = t_pt_5; r_ph = t_ni_5; r_hk = t_bt_5; r_tw = r_47_5; r_hl = t_pt_6; r_7a = t_ni_6; r_1y = t_bt_6; r_if = r_47_6; r_uk = t_pt_7; r_3d = t_ni_7; r_6w = t_bt_7; r_93 = r_47_7; r_gg = t_pt_8; r_zt = t_ni_8; r_m6 = t_bt_8; r_jc = r_47_8; r_vw = t_pt_9; r_xz = 0x2e00000000ull; goto l_std_tz; }
    t_ed_9 = (u64)((u64)ld8((a_4 + 75)) << 24ull);
    if (!(a_5 > 76ull)) { r_zo = t_ed_9; r_lj = t_6o_9; r_42 = t_1w_8; r_5r = t_pq_8; r_pa = t_ed_8; r_7p = t_6o_8; r_o8 = t_1w_7; r_bf = t_pq_7; r_bp = t_ed_7; r_m3 = t_6o_7; r_1s = t_1w_6; r_2r = t_pq_6; r_pk = t_ed_6; r_wb = t_6o_6; r_3n = t_1w_5; r_bo = t_pq_5; r_zs = t_ed_5; r_v3 = t_6o_5; r_ua = t_1w_4; r_v9 = t_pq_4; r_ps = t_ed_4; r_gi = t_6o_4; r_3f = t_1w_3; r_pn = t_pq_3; r_je = t_ed_3; r_jk = t_6o_3; r_l0 = t_1w_2; r_qi = t_pq_2; r_vv = t_ed_2; r_sr = t_6o_2; r_qg = t_1w_1; r_q7 = t_pq_1; r_58 = t_ed_1; r_6f = t_6o_1; r_w2 = t_1w; r_mm = t_pq; r_0r = t_ed; r_75 = t_6o; r_fn = r_pe; r_i4 = t_pt; r_1t = t_ni; r_a1 = t_bt; r_cc = r_47; r_5r_1 = t_pt_1; r_og = t_ni_1; r_7z = t_bt_1; r_m1 = r_47_1; r_nq = t_pt_2; r_7w = t_ni_2; r_w5 = t_bt_2; r_0i = r_47_2; r_x9 = t_pt_3; r_vm = t_ni_3; r_4a = t_bt_3; r_75_1 = r_47_3; r_9s = t_pt_4; r_co = t_ni_4; r_0c = t_bt_4; r_9q = r_47_4; r_zy = t_pt_5; r_ph = t_ni_5; r_hk = t_bt_5; r_tw = r_47_5; r_hl = t_pt_6; r_7a = t_ni_6; r_1y = t_bt_6; r_if = r_47_6; r_uk = t_pt_7; r_3d = t_ni_7; r_6w = t_bt_7; r_93 = r_47_7; r_gg = t_pt_8; r_zt = t_ni_8; r_m6 = t_bt_8; r_jc = r_47_8; r_vw = t_pt_9; r_xz = 0x2e00000000ull; goto l_std_tz; }
    r_zo = t_ed_9;
    r_lj = t_6o_9;
    r_42 = t_1w_8;
    r_5r = t_pq_8;
    r_pa = t_ed_8;
    r_7p = t_6o_8;
    r_o8 = t_1w_7;
    r_bf = t_pq_7;
    r_bp = t_ed_7;
    r_m3 = t_6o_7;
    r_1s = t_1w_6;
    r_2r = t_pq_6;
    r_pk = t_ed_6;
    r_wb = t_6o_6;
    r_3n = t_1w_5;
    r_bo = t_pq_5;
    r_zs = t_ed_5;
    r_v3 = t_6o_5;
    r_ua = t_1w_4;
    r_v9 = t_pq_4;
    r_ps = t_ed_4;
    r_gi = t_6o_4;
    r_3f = t_1w_3;
    r_pn = t_pq_3;
    r_je = t_ed_3;
    r_jk = t_6o_3;
    r_l0 = t_1w_2;
    r_qi = t_pq_2;
    r_vv = t_ed_2;
    r_sr = t_6o_2;
    r_qg = t_1w_1;
    r_q7 = t_pq_1;
    r_58 = t_ed_1;
    r_6f = t_6o_1;
    r_w2 = t_1w;
    r_mm = t_pq;
    r_0r = t_ed;
    r_75 = t_6o;
    r_fn = r_pe;
    r_i4 = t_pt;
    r_1t = t_ni;
    r_a1 = t_bt;
    r_cc = r_47;
    r_5r_1 = t_pt_1;
    r_og = t_ni_1;
    r_7z = t_bt_1;
    r_m1 = r_47_1;
    r_nq = t_pt_2;
    r_7w = t_ni_2;
    r_w5 = t_bt_2;
    r_0i = r_47_2;
    r_x9 = t_pt_3;
    r_vm = t_ni_3;
    r_4a = t_bt_3;
    r_75_1 = r_47_3;
    r_9s = t_pt_4;
    r_co = t_ni_4;
    r_0c = t_bt_4;
    r_9q = r_47_4;
    r_zy = t_pt_5;
    r_ph = t_ni_5;
    r_hk = t_bt_5;
    r_tw = r_47_5;
    r_hl = t_pt_6;
    r_7a = t_ni_6;
    r_1y = t_bt_6;
    r_if = r_47_6;
    r_uk = t_pt_7;
    r_3d = t_ni_7;
    r_6w = t_bt_7;
    r_93 = r_47_7;
    r_gg = t_pt_8;
    r_zt = t_ni_8;
    r_m6 = t_bt_8;
    r_jc = r_47_8;
    r_vw = t_pt_9;
    r_xz = (u64)((u64)ld8((a_4 + 76)) << 32ull);
l_std_tz:;
    if (!(a_5 > 77ull)) { r_zo_1 = 0x2e000000000000ull; r_jg = 0x2e0000000000ull; r_a3 = 0x2e00000000000000ull; goto l_std_8p; }
    t_pq_9 = (u64)((u64)ld8((a_4 + 77)) << 40ull);
    if (a_5 == 78ull) { r_zo_1 = 0x2e000000000000ull; r_jg = t_pq_9; r_a3 = 0x2e00000000000000ull; goto l_std_8p; }
    t_bt_9 = (u64)((u64)ld8((a_4 + 78)) << 48ull);
    if (!(a_5 > 79ull)) { r_zo_1 = t_bt_9; r_jg = t_pq_9; r_a3 = 0x2e00000000000000ull; goto l_std_8p; }
    r_zo_1 = t_bt_9;
    r_jg = t_pq_9;
    r_a3 = (u64)((u64)ld8((a_4 + 79)) << 56ull);
l_std_8p:;
    st8(a_1, a_2);
    st8((a_1 + 1), a_3);
    st8((a_1 + 2), (u8)a_6);
    st8((a_1 + 3), 0u);
    st32((a_1 + 4), 0u);
    st64((a_1 + 8), (((((((r_75 | (u64)r_fn) | r_i4) | r_0r) | r_1t) | r_mm) | r_a1) | r_w2));
    st64((a_1 + 16), (((((((r_6f | (u64)r_cc) | r_5r_1) | r_58) | r_og) | r_q7) | r_7z) | r_qg));
    st64((a_1 + 24), (((((((r_sr | (u64)r_m1) | r_nq) | r_vv) | r_7w) | r_qi) | r_w5) | r_l0));
    st64((a_1 + 32), (((((((r_jk | (u64)r_0i) | r_x9) | r_je) | r_vm) | r_pn) | r_4a) | r_3f));
    st64((a_1 + 40), (((((((r_gi | (u64)r_75_1) | r_9s) | r_ps) | r_co) | r_v9) | r_0c) | r_ua));
    st64((a_1 + 48), (((((((r_v3 | (u64)r_9q) | r_zy) | r_zs) | r_ph) | r_bo) | r_hk) | r_3n));
    st64((a_1 + 56), (((((((r_wb | (u64)r_tw) | r_hl) | r_pk) | r_7a) | r_2r) | r_1y) | r_1s));
    st64((a_1 + 64), (((((((r_m3 | (u64)r_if) | r_uk) | r_bp) | r_3d) | r_bf) | r_6w) | r_o8));
    st64((a_1 + 72), (((((((r_7p | (u64)r_93) | r_gg) | r_pa) | r_zt) | r_5r) | r_m6) | r_42));
    st64((a_1 + 80), (((((((r_lj | (u64)r_jc) | r_vw) | r_zo) | r_xz) | r_jg) | r_zo_1) | r_a3));
    return;
}

/* std_io::io::error::Error::from_raw_os_error */
void std_io_io_error_Error_from_raw_os_error(u8 *a_1, u32 a_2)
{
    u8 r_n9;
    if ((i32)a_2 < (i32)0u) { r_n9 = 41u; goto l_std_ck; }
    switch (a_2) {
    case 1u: { r_n9 = 1u; goto l_std_ck; }
    case 2u: goto l_arm_xv;
    case 4u: goto l_arm_xv_1;
    case 7u: goto l_arm_xv_2;
    case 11u: goto l_arm_xv_3;
    case 12u: goto l_arm_xv_4;
    case 13u: { r_n9 = 1u; goto l_std_ck; }
    case 16u: goto l_arm_xv_5;
    case 17u: goto l_arm_xv_6;
    case 18u: goto l_arm_xv_7;
    case 20u: goto l_arm_xv_8;
    case 21u: goto l_arm_xv_9;
    case 22u: goto l_arm_xv_10;
    case 26u: goto l_arm_xv_11;
    case 27u: goto l_arm_xv_12;
    case 28u: goto l_arm_xv_13;
    case 29u: goto l_arm_xv_14;
    case 30u: goto l_arm_xv_15;
    case 31u: goto l_arm_xv_16;
    case 32u: goto l_arm_xv_17;
    case 35u: goto l_arm_xv_18;
    case 36u: goto l_arm_xv_19;
    case 38u: goto l_arm_xv_20;
    case 39u: goto l_arm_xv_21;
    case 40u: goto l_arm_xv_22;
    case 95u: goto l_arm_xv_20;
    case 98u: goto l_arm_xv_23;
    case 99u: goto l_arm_xv_24;
    case 100u: goto l_arm_xv_25;
    case 101u: goto l_arm_xv_26;
    case 103u: goto l_arm_xv_27;
    case 104u: goto l_arm_xv_28;
    case 107u: goto l_arm_xv_29;
    case 110u: goto l_arm_xv_30;
    case 111u: goto l_arm_xv_31;
    case 113u: goto l_arm_xv_32;
    case 115u: goto l_arm_xv_33;
    case 116u: goto l_arm_xv_34;
    case 122u: goto l_arm_xv_35;
    default: goto l_default_xv;
    }
l_arm_xv:;
    r_n9 = 0u;
    goto l_std_ck;
l_arm_xv_1:;
    r_n9 = 35u;
    goto l_std_ck;
l_arm_xv_2:;
    r_n9 = 34u;
    goto l_std_ck;
l_arm_xv_3:;
    r_n9 = 13u;
    goto l_std_ck;
l_arm_xv_4:;
    r_n9 = 38u;
    goto l_std_ck;
l_arm_xv_5:;
    r_n9 = 28u;
    goto l_std_ck;
l_arm_xv_6:;
    r_n9 = 12u;
    goto l_std_ck;
l_arm_xv_7:;
    r_n9 = 31u;
    goto l_std_ck;
l_arm_xv_8:;
    r_n9 = 14u;
    goto l_std_ck;
l_arm_xv_9:;
    r_n9 = 15u;
    goto l_std_ck;
l_arm_xv_10:;
    r_n9 = 20u;
    goto l_std_ck;
l_arm_xv_11:;
    r_n9 = 29u;
    goto l_std_ck;
l_arm_xv_12:;
    r_n9 = 27u;
    goto l_std_ck;
l_arm_xv_13:;
    r_n9 = 24u;
    goto l_std_ck;
l_arm_xv_14:;
    r_n9 = 25u;
    goto l_std_ck;
l_arm_xv_15:;
    r_n9 = 17u;
    goto l_std_ck;
l_arm_xv_16:;
    r_n9 = 32u;
    goto l_std_ck;
l_arm_xv_17:;
    r_n9 = 11u;
    goto l_std_ck;
l_arm_xv_18:;
    r_n9 = 30u;
    goto l_std_ck;
l_arm_xv_19:;
    r_n9 = 33u;
    goto l_std_ck;
l_arm_xv_20:;
    r_n9 = 36u;
    goto l_std_ck;
l_arm_xv_21:;
    r_n9 = 16u;
    goto l_std_ck;
l_arm_xv_22:;
    r_n9 = 18u;
    goto l_std_ck;
l_arm_xv_23:;
    r_n9 = 8u;
    goto l_std_ck;
l_arm_xv_24:;
    r_n9 = 9u;
    goto l_std_ck;
l_arm_xv_25:;
    r_n9 = 10u;
    goto l_std_ck;
l_arm_xv_26:;
    r_n9 = 5u;
    goto l_std_ck;
l_arm_xv_27:;
    r_n9 = 6u;
    goto l_std_ck;
l_arm_xv_28:;
    r_n9 = 3u;
    goto l_std_ck;
l_arm_xv_29:;
    r_n9 = 7u;
    goto l_std_ck;
l_arm_xv_30:;
    r_n9 = 22u;
    goto l_std_ck;
l_arm_xv_31:;
    r_n9 = 2u;
    goto l_std_ck;
l_arm_xv_32:;
    r_n9 = 4u;
    goto l_std_ck;
l_arm_xv_33:;
    r_n9 = 39u;
    goto l_std_ck;
l_arm_xv_34:;
    r_n9 = 19u;
    goto l_std_ck;
l_arm_xv_35:;
    r_n9 = 26u;
    goto l_std_ck;
l_default_xv:;
    r_n9 = 41u;
l_std_ck:;
    st8(a_1, 0u);
    st8((a_1 + 1), r_n9);
    st8((a_1 + 2), 0u);
    st8((a_1 + 3), 0u);
    st32((a_1 + 4), a_2);
    memset((a_1 + 8), 0u, 80);
    return;
}

/* core::fmt::formatter::Formatter::write_indented::<#bf264aed5fa78656> */
NEVER COLD u8 core_fmt_formatter_Formatter_write_indented_bf264aed5fa78656(u8 *a_1, u8 *a_2, u64 a_3)
{
    u64 r_4q;
    u64 r_11;
    u64 r_36;
    u64 r_9y;
    u64 r_c4;
    u8 r_fk;
    if (a_3 == 0ull) { r_c4 = 0ull; goto l_after_xu; }
    r_4q = 0ull;
    r_11 = 0ull;
l_core_q2:;
    r_36 = (r_11 + 1ull);
    if (!(ld8((a_2 + (i64)(r_11))) == 10u)) { r_9y = r_4q; goto l_join_lk; }
    u8 r_3y = core_fmt_formatter_Formatter_write_indented_line_bf264_85bf5cf7(a_1, away(a_2, ((r_4q > r_36) ? 0ull : r_4q)), usub_sat64(r_36, r_4q), 1u);
    if ((u8)(r_3y & 1)) { r_fk = 1u; goto l_return_ri; }
    r_9y = r_36;
l_join_lk:;
    if (r_36 == a_3) { r_c4 = r_9y; goto l_after_xu; }
    r_4q = r_9y;
    r_11 = r_36;
    goto l_core_q2;
l_after_xu:;
    u8 r_8g = core_fmt_formatter_Formatter_write_indented_line_bf264_85bf5cf7(a_1, away(a_2, ((r_c4 > a_3) ? 0ull : r_c4)), usub_sat64(a_3, r_c4), 0u);
    r_fk = r_8g;
l_return_ri:;
    return r_fk;
}

/* core::fmt::formatter::Formatter::write_indented_line::<#bf264aed5fa78656> */
static u8 core_fmt_formatter_Formatter_write_indented_line_bf264_85bf5cf7(u8 *a_1, u8 *a_2, u64 a_3, u8 a_4)
{
    u8 *r_ur;
    u64 r_52;
    u8 *r_ym;
    u8 *r_1x;
    u64 r_4n;
    u64 r_ep;
    u64 r_pv;
    u64 r_m0;
    u8 *r_w9;
    u8 *r_62;
    u64 r_0f;
    u8 r_47;
    u64 r_km;
    u64 r_c4;
    u8 *r_ym_1;
    u8 *r_1x_1;
    u64 r_9w;
    u64 r_uj;
    u8 *r_35;
    u8 *r_62_1;
    u64 r_zn;
    u8 r_47_1;
    u64 r_km_1;
    u8 r_fk;
    if (a_3 == 0ull) { r_fk = 0u; goto l_return_ri; }
    r_ur = away(a_1, 1168ull);
    if (!(u8)(ld8(r_ur) & 1)) goto l_arm_hm;
    r_52 = ld64(away(a_1, 1160ull));
    if (r_52 == 0ull) goto l_arm_hm;
    r_ym = away(a_1, 1032ull);
    r_1x = away(a_1, 4ull);
    r_4n = ld64(r_ym);
    r_ep = 0ull;
l_join_m6:;
    r_pv = r_4n;
    r_m0 = 4ull;
    r_w9 = ((u8 *)g_static_9);
l_arm_td:;
    r_62 = away(r_w9, 1ull);
    r_0f = (r_m0 + 0xffffffffffffffffull);
    r_47 = ld8(r_w9);
    if (!(r_pv > 1023ull)) { r_km = r_pv; goto l_std_41; }
    u8 r_09 = std_io_io_buffer_Buffer_flush(a_1);
    if (!r_09) { r_fk = 1u; goto l_return_ri; }
    u64 r_38 = ld64(r_ym);
    if (r_38 > 1023ull) { r_fk = 1u; goto l_return_ri; }
    r_km = r_38;
l_std_41:;
    st8((r_1x + (i64)(r_km)), r_47);
    r_c4 = (r_km + 1ull);
    st64(r_ym, r_c4);
    if (!(r_0f == 0ull)) { r_pv = r_c4; r_m0 = r_0f; r_w9 = r_62; goto l_arm_td; }
    u64 r_36 = (r_ep + 1ull);
    if (!(r_36 == r_52)) { r_4n = r_c4; r_ep = r_36; goto l_join_m6; }
l_arm_hm:;
    st8(r_ur, (u8)a_4);
    u8 r_ml = core_fmt_utf8_is_utf8(a_2, a_3);
    if (!r_ml) { r_fk = 1u; goto l_return_ri; }
    r_ym_1 = away(a_1, 1032ull);
    r_1x_1 = away(a_1, 4ull);
    r_9w = ld64(r_ym_1);
    r_uj = a_3;
    r_35 = a_2;
l_arm_65:;
    r_62_1 = away(r_35, 1ull);
    r_zn = (r_uj + 0xffffffffffffffffull);
    r_47_1 = ld8(r_35);
    if (!(r_9w > 1023ull)) { r_km_1 = r_9w; goto l_std_41_1; }
    u8 r_09_1 = std_io_io_buffer_Buffer_flush(a_1);
    if (!r_09_1) { r_fk = 1u; goto l_return_ri; }
    u64 r_38_1 = ld64(r_ym_1);
    if (r_38_1 > 1023ull) { r_fk = 1u; goto l_return_ri; }
    r_km_1 = r_38_1;
l_std_41_1:;
    st8((r_1x_1 + (i64)(r_km_1)), r_47_1);
    u64 r_c4_1 = (r_km_1 + 1ull);
    st64(r_ym_1, r_c4_1);
    if (r_zn == 0ull) { r_fk = 0u; goto l_return_ri; }
    r_9w = r_c4_1;
    r_uj = r_zn;
    r_35 = r_62_1;
    goto l_arm_65;
l_return_ri:;
    return r_fk;
}

/* core::fmt::utf8::is_utf8 */
static u8 core_fmt_utf8_is_utf8(u8 *a_1, u64 a_2)
{
    u64 r_ay;
    u8 r_47;
    u32 r_cf;
    u64 r_36;
    u8 r_47_1;
    u32 r_7w;
    u64 r_yc;
    u32 r_29;
    u64 r_hc;
    u8 r_5k;
    u64 common_5c;
    if (a_2 == 0ull) { r_5k = 1u; goto l_common_6l; }
    r_ay = 0ull;
l_join_tw:;
    r_47 = ld8((a_1 + (i64)(r_ay)));
    r_cf = (u32)r_47;
    if ((i8)r_47 > (i8)255u) { common_5c = 1ull; goto l_join_mx; }
    r_36 = (r_ay + 1ull);
    if (!(a_2 > r_36)) { r_5k = 0u; goto l_common_6l; }
    r_47_1 = ld8((a_1 + (i64)(r_36)));
    if ((i8)r_47_1 > (i8)255u) { r_5k = 0u; goto l_common_6l; }
    u8 narrow_pi = (u8)(umin8(r_47_1, 192u) & 127u);
    r_7w = (u32)narrow_pi;
    if ((r_47 < 194u) ? 1u : (narrow_pi > 63u)) { r_5k = 0u; goto l_common_6l; }
    if (r_47 < 224u) { common_5c = 2ull; goto l_join_mx; }
    r_yc = (r_ay + 2ull);
    if (!(a_2 > r_yc)) { r_5k = 0u; goto l_common_6l; }
    if (!((i8)ld8((a_1 + (i64)(r_yc))) < (i8)192u)) { r_5k = 0u; goto l_common_6l; }
    if (!(r_47 < 240u)) goto l_join_0p;
    r_29 = ((u32)(r_7w << 6u) | ((u32)(r_cf << 12u) + 0xfff20000u));
    if (r_29 < 2048u) { r_5k = 0u; goto l_common_6l; }
    if ((r_29 > 55295u) ? (r_47 < 238u) : 0u) { r_5k = 0u; goto l_common_6l; }
    common_5c = 3ull;
    goto l_join_mx;
l_join_0p:;
    r_hc = (r_ay + 3ull);
    if (!(a_2 > r_hc)) { r_5k = 0u; goto l_common_6l; }
    if (!((i8)ld8((a_1 + (i64)(r_hc))) < (i8)192u)) { r_5k = 0u; goto l_common_6l; }
    if ((((u32)(r_cf << 18u) + 0xfc3f0000u) + (u32)(r_7w << 12u)) < 0x100000u) { common_5c = 4ull; goto l_join_mx; }
    r_5k = 0u;
l_common_6l:;
    return r_5k;
l_join_mx:;
    u64 r_yd = (common_5c + r_ay);
    if (r_yd < a_2) { r_ay = r_yd; goto l_join_tw; }
    r_5k = 1u;
    goto l_common_6l;
}

/* core::fmt::formatter::Formatter::cut_and_fill::<#bf264aed5fa78656> */
static NEVER u8 core_fmt_formatter_Formatter_cut_and_fill_bf264aed5fa78656(u8 *a_1, u8 *a_2, u64 a_3)
{
    u64 r_9x;
    u64 r_8y;
    u64 r_vo;
    u64 common_vw;
    u64 common_t3;
    u64 common_yk;
    u8 *r_p7;
    u8 r_5s;
    u64 r_no;
    u64 r_ib;
    u64 r_pk;
    u64 r_ov;
    u32 r_yf;
    u64 r_ee;
    u32 r_cq;
    u8 *r_ym;
    u8 *r_1x;
    u64 r_9w;
    u64 r_uj;
    u8 *r_35;
    u8 *r_62;
    u64 r_zn;
    u8 r_47;
    u64 r_km;
    u8 r_fk;
    u64 r_52 = ld64(away(a_1, 1152ull));
    if (a_3 > r_52) { r_9x = r_52; r_8y = 0ull; goto l_join_s1; }
    common_vw = a_3;
    goto l_join_tc;
l_join_s1:;
    if (!((i8)ld8((a_2 + (i64)(r_8y))) > (i8)191u)) { r_vo = r_9x; goto l_join_66; }
    if (r_9x == 0ull) goto l_core_mb;
    r_vo = (r_9x + 0xffffffffffffffffull);
l_join_66:;
    u64 r_36 = (r_8y + 1ull);
    if (r_36 == a_3) { common_t3 = a_3; goto l_core_1u; }
    r_9x = r_vo;
    r_8y = r_36;
    goto l_join_s1;
l_core_mb:;
    if (a_3 < r_8y) { r_fk = 1u; goto l_return_ri; }
    common_vw = r_8y;
l_join_tc:;
    if (a_3 == 0ull) { common_yk = common_vw; goto l_join_1x; }
    common_t3 = common_vw;
l_core_1u:;
    if ((i8)ld8(a_2) > (i8)191u) { common_yk = common_t3; goto l_join_1x; }
    r_fk = 1u;
    goto l_return_ri;
l_join_1x:;
    if (common_yk == a_3) goto l_arm_x2;
    if (!((i8)ld8((a_2 + (i64)(common_yk))) > (i8)191u)) { r_fk = 1u; goto l_return_ri; }
l_arm_x2:;
    r_p7 = away(a_1, 1136ull);
    u64 r_52_1 = ld64(away(a_1, 1144ull));
    r_5s = (common_yk == 0ull);
    if ((u8)((u8)r_5s | (u8)(r_52_1 == 0ull))) { r_pk = r_52_1; goto l_core_55; }
    r_no = r_52_1;
    r_ib = 0ull;
l_join_ui:;
    u64 spec_5q = (r_no + (u64)(0 - (u64)((i8)ld8(away(a_2, r_ib)) > (i8)191u)));
    u64 r_36_1 = (r_ib + 1ull);
    if ((r_36_1 >= common_yk) ? 1u : (spec_5q == 0ull)) { r_pk = spec_5q; goto l_core_55; }
    r_no = spec_5q;
    r_ib = r_36_1;
    goto l_join_ui;
l_core_55:;
    switch (umax8(ld8(away(a_1, 1140ull)), 1u)) {
    case 1u: goto l_core_h6;
    case 2u: goto l_then_j0;
    default: { r_ov = r_pk; goto l_core_yu; }
    }
l_core_h6:;
    r_ee = 0ull;
    r_cq = ld32(r_p7);
    goto l_arm_l3;
l_then_j0:;
    r_ov = (u64)(r_pk >> 1ull);
l_core_yu:;
    r_yf = ld32(r_p7);
    if (r_ov == 0ull) { r_ee = 0ull; r_cq = r_yf; goto l_arm_l3; }
    u8 r_wf = core_fmt_formatter_Formatter_write_char_n_times_bf264a_5c1f4f90(a_1, r_yf, r_ov);
    if ((u8)(r_wf & 1)) { r_fk = 1u; goto l_return_ri; }
    r_ee = r_ov;
    r_cq = r_yf;
l_arm_l3:;
    if (!(ld64(away(a_1, 1160ull)) == 0ull)) goto l_core_gy;
    if (r_5s) goto l_arm_vh;
    r_ym = away(a_1, 1032ull);
    r_1x = away(a_1, 4ull);
    r_9w = ld64(r_ym);
    r_uj = common_yk;
    r_35 = a_2;
l_arm_65:;
    r_62 = away(r_35, 1ull);
    r_zn = (r_uj + 0xffffffffffffffffull);
    r_47 = ld8(r_35);
    if (!(r_9w > 1023ull)) { r_km = r_9w; goto l_std_41; }
    u8 r_09 = std_io_io_buffer_Buffer_flush(a_1);
    if (!r_09) { r_fk = 1u; goto l_return_ri; }
    u64 r_38 = ld64(r_ym);
    if (r_38 > 1023ull) { r_fk = 1u; goto l_return_ri; }
    r_km = r_38;
l_std_41:;
    st8((r_1x + (i64)(r_km)), r_47);
    u64 r_c4 = (r_km + 1ull);
    st64(r_ym, r_c4);
    if (r_zn == 0ull) goto l_arm_vh;
    r_9w = r_c4;
    r_uj = r_zn;
    r_35 = r_62;
    goto l_arm_65;
l_core_gy:;
    u8 r_0j = core_fmt_formatter_Formatter_write_indented_bf264aed5fa78656(a_1, a_2, common_yk);
    if ((u8)(r_0j & 1)) { r_fk = 1u; goto l_return_ri; }
l_arm_vh:;
    if (!(r_pk > r_ee)) { r_fk = 0u; goto l_return_ri; }
    u8 r_wf_1 = core_fmt_formatter_Formatter_write_char_n_times_bf264a_5c1f4f90(a_1, r_cq, (r_pk - r_ee));
    r_fk = r_wf_1;
l_return_ri:;
    return r_fk;
}

/* core::fmt::formatter::Formatter::write_char_n_times::<#bf264aed5fa78656> */
static u8 core_fmt_formatter_Formatter_write_char_n_times_bf264a_5c1f4f90(u8 *a_1, u32 a_2, u64 a_3)
{
    A(1) u8 slot_1[16];
    A(4) u8 slot_2[4];
    A(8) u8 slot_3[24];
    u8 *sink_p9;
    u8 *sink_u0;
    u8 *sink_e6;
    u8 *r_89;
    u8 *r_ym;
    u8 *r_1x;
    u64 r_jq;
    u64 r_pv;
    u64 r_m0;
    u8 *r_w9;
    u8 *r_62;
    u64 r_0f;
    u8 r_47;
    u64 r_km;
    u64 r_pu;
    u8 *r_ym_1;
    u8 *r_1x_1;
    u64 r_pv_1;
    u64 r_m0_1;
    u8 *r_w9_1;
    u8 *r_62_1;
    u64 r_0f_1;
    u8 r_47_1;
    u64 r_km_1;
    u8 r_ww;
    u8 *sink_se;
    u8 r_3c;
    u64 r_te;
    u8 *r_xw;
    u64 r_38_2;
    u8 *r_89_1;
    u8 r_ts;
    u8 *r_ym_2;
    u8 *r_1x_2;
    u64 r_9x;
    u64 r_9w;
    u64 r_uj;
    u8 *r_35;
    u8 *r_62_2;
    u64 r_zn;
    u8 r_47_2;
    u64 r_km_2;
    u8 r_fk;
    memset(slot_3, 0u, 24);
    sink_p9 = (slot_2 + 1);
    sink_u0 = (slot_2 + 2);
    sink_e6 = (slot_2 + 3);
    if (!(a_2 < 128u)) goto l_join_51;
    memset(slot_1, (u8)a_2, 16);
    if (!(a_3 > 16ull)) { r_pu = a_3; goto l_after_je; }
    r_89 = away(a_1, 1160ull);
    r_ym = away(a_1, 1032ull);
    r_1x = away(a_1, 4ull);
    r_jq = a_3;
l_join_2b:;
    if (!(ld64(r_89) == 0ull)) goto l_core_xp;
    r_pv = ld64(r_ym);
    r_m0 = 16ull;
    r_w9 = slot_1;
l_arm_td:;
    r_62 = away(r_w9, 1ull);
    r_0f = (r_m0 + 0xffffffffffffffffull);
    r_47 = ld8(r_w9);
    if (!(r_pv > 1023ull)) { r_km = r_pv; goto l_std_41; }
    u8 r_09 = std_io_io_buffer_Buffer_flush(a_1);
    if (!r_09) { r_ww = 1u; goto l_core_2s; }
    u64 r_38 = ld64(r_ym);
    if (r_38 > 1023ull) { r_ww = 1u; goto l_core_2s; }
    r_km = r_38;
l_std_41:;
    st8((r_1x + (i64)(r_km)), r_47);
    u64 r_c4 = (r_km + 1ull);
    st64(r_ym, r_c4);
    if (r_0f == 0ull) goto l_arm_wa;
    r_pv = r_c4;
    r_m0 = r_0f;
    r_w9 = r_62;
    goto l_arm_td;
l_core_xp:;
    u8 r_78 = core_fmt_formatter_Formatter_write_indented_bf264aed5fa78656(a_1, slot_1, 16ull);
    if ((u8)(r_78 & 1)) { r_ww = 1u; goto l_core_2s; }
l_arm_wa:;
    u64 r_ao = (r_jq + 0xfffffffffffffff0ull);
    if (r_ao > 16ull) { r_jq = r_ao; goto l_join_2b; }
    r_pu = r_ao;
l_after_je:;
    if (!(ld64(away(a_1, 1160ull)) == 0ull)) goto l_else_qs;
    r_ym_1 = away(a_1, 1032ull);
    r_1x_1 = away(a_1, 4ull);
    r_pv_1 = ld64(r_ym_1);
    r_m0_1 = r_pu;
    r_w9_1 = slot_1;
l_arm_td_1:;
    r_62_1 = away(r_w9_1, 1ull);
    r_0f_1 = (r_m0_1 + 0xffffffffffffffffull);
    r_47_1 = ld8(r_w9_1);
    if (!(r_pv_1 > 1023ull)) { r_km_1 = r_pv_1; goto l_std_41_1; }
    u8 r_09_1 = std_io_io_buffer_Buffer_flush(a_1);
    if (!r_09_1) { r_ww = 1u; goto l_core_2s; }
    u64 r_38_1 = ld64(r_ym_1);
    if (r_38_1 > 1023ull) { r_ww = 1u; goto l_core_2s; }
    r_km_1 = r_38_1;
l_std_41_1:;
    st8((r_1x_1 + (i64)(r_km_1)), r_47_1);
    u64 r_c4_1 = (r_km_1 + 1ull);
    st64(r_ym_1, r_c4_1);
    if (r_0f_1 == 0ull) { r_ww = 0u; goto l_core_2s; }
    r_pv_1 = r_c4_1;
    r_m0_1 = r_0f_1;
    r_w9_1 = r_62_1;
    goto l_arm_td_1;
l_else_qs:;
    u8 r_k0 = core_fmt_formatter_Formatter_write_indented_bf264aed5fa78656(a_1, slot_1, r_pu);
    r_ww = r_k0;
l_core_2s:;
    r_fk = r_ww;
    goto l_return_ri;
l_join_51:;
    st32(slot_2, 0u);
    if (!(a_2 < 2048u)) goto l_else_fp;
    st8(slot_2, (u8)((u8)(u32)(a_2 >> 6u) | 192u));
    sink_se = sink_p9;
    r_3c = (u8)((u8)((u8)a_2 & 63u) | 128u);
    r_te = 2ull;
    goto l_core_kp;
l_else_fp:;
    if ((u8)((u8)(a_2 < 55296u) | (u8)((a_2 + 0xffff2000u) < 0x102000u))) goto l_else_00;
    st8(slot_2, 239u);
    st8(sink_p9, 191u);
    sink_se = sink_u0;
    r_3c = 189u;
    r_te = 3ull;
    goto l_core_kp;
l_else_00:;
    if (!(a_2 < 0x10000u)) goto l_else_t5;
    st8(slot_2, (u8)((u8)(u32)(a_2 >> 12u) | 224u));
    st8(sink_p9, (u8)((u8)((u8)(u32)(a_2 >> 6u) & 63u) | 128u));
    sink_se = sink_u0;
    r_3c = (u8)((u8)((u8)a_2 & 63u) | 128u);
    r_te = 3ull;
    goto l_core_kp;
l_else_t5:;
    st8(slot_2, (u8)((u8)(u32)(a_2 >> 18u) | 240u));
    st8(sink_p9, (u8)((u8)((u8)(u32)(a_2 >> 12u) & 63u) | 128u));
    st8(sink_u0, (u8)((u8)((u8)(u32)(a_2 >> 6u) & 63u) | 128u));
    sink_se = sink_e6;
    r_3c = (u8)((u8)((u8)a_2 & 63u) | 128u);
    r_te = 4ull;
l_core_kp:;
    st8(sink_se, r_3c);
    core_str_utf8_from_utf8(slot_3, slot_2, r_te);
    if (!(ld8(slot_3) == 0u)) { r_fk = 1u; goto l_return_ri; }
    r_xw = ldp((slot_3 + 8));
    r_38_2 = ld64((slot_3 + 16));
    r_89_1 = away(a_1, 1160ull);
    r_ts = (r_38_2 == 0ull);
    r_ym_2 = away(a_1, 1032ull);
    r_1x_2 = away(a_1, 4ull);
    r_9x = 0ull;
l_join_de:;
    if (!(ld64(r_89_1) == 0ull)) goto l_core_tj;
    if (r_ts) goto l_arm_90;
    r_9w = ld64(r_ym_2);
    r_uj = r_38_2;
    r_35 = r_xw;
l_arm_65:;
    r_62_2 = away(r_35, 1ull);
    r_zn = (r_uj + 0xffffffffffffffffull);
    r_47_2 = ld8(r_35);
    if (!(r_9w > 1023ull)) { r_km_2 = r_9w; goto l_std_41_2; }
    u8 r_ba = std_io_io_buffer_Buffer_flush(a_1);
    if (!r_ba) { r_fk = 1u; goto l_return_ri; }
    u64 r_38_3 = ld64(r_ym_2);
    if (r_38_3 > 1023ull) { r_fk = 1u; goto l_return_ri; }
    r_km_2 = r_38_3;
l_std_41_2:;
    st8((r_1x_2 + (i64)(r_km_2)), r_47_2);
    u64 r_c4_2 = (r_km_2 + 1ull);
    st64(r_ym_2, r_c4_2);
    if (r_zn == 0ull) goto l_arm_90;
    r_9w = r_c4_2;
    r_uj = r_zn;
    r_35 = r_62_2;
    goto l_arm_65;
l_core_tj:;
    u8 r_a0 = core_fmt_formatter_Formatter_write_indented_bf264aed5fa78656(a_1, r_xw, r_38_2);
    if ((u8)(r_a0 & 1)) { r_fk = 1u; goto l_return_ri; }
l_arm_90:;
    u64 r_36 = (r_9x + 1ull);
    if (r_36 == a_3) { r_fk = 0u; goto l_return_ri; }
    r_9x = r_36;
    goto l_join_de;
l_return_ri:;
    return r_fk;
}

/* std_io::io::LibcRuntimeEprint::eprintln::<#3878b759d2b8d344> */
void std_io_io_LibcRuntimeEprint_eprintln_3878b759d2b8d344(u8 *a_1, u8 *a_2)
{
    A(8) u8 slot_1[1136];
    A(1) u8 slot_2[64];
    A(8) u8 slot_3[64];
    A(8) u8 slot_4[1176];
    A(8) u8 slot_5[64];
    A(8) u8 slot_6[64];
    u8 *r_mb;
    u64 r_qw;
    u8 *r_rv;
    u64 r_qw_1;
    u8 *r_rv_1;
    u64 r_qw_2;
    u8 *r_rv_2;
    u64 r_qw_3;
    u8 *r_ix;
    u8 *r_s4;
    u8 *r_uy;
    u8 *r_ky;
    u8 *r_lp;
    u8 *r_e1;
    u64 r_9w;
    u64 r_uj;
    u8 *r_35;
    u8 *r_62;
    u64 r_zn;
    u8 r_47;
    u64 r_km;
    u64 r_c4;
    u64 r_5a;
    u8 *r_e1_1;
    u64 r_9w_1;
    u64 r_uj_1;
    u8 *r_35_1;
    u8 *r_62_1;
    u64 r_zn_1;
    u8 r_47_1;
    u64 r_km_1;
    u8 *r_e1_2;
    u64 r_9w_2;
    u64 r_uj_2;
    u8 *r_35_2;
    u8 *r_62_2;
    u64 r_zn_2;
    u8 r_47_2;
    u64 r_km_2;
    u8 *r_e1_3;
    u64 r_9w_3;
    u64 r_uj_3;
    u8 *r_35_3;
    u8 *r_62_3;
    u64 r_zn_3;
    u8 r_47_3;
    u64 r_km_3;
    u8 *r_e1_4;
    u64 r_4x;
    u8 r_bu;
    u8 r_b2;
    u8 r_jt;
    u8 r_qc;
    u8 r_yd;
    u8 r_x1;
    u32 r_g6;
    u64 r_qc_1;
    u64 r_bi;
    u8 r_u5;
    u8 r_mz;
    u8 r_pi;
    u8 r_gx;
    u8 r_wb;
    u32 r_8b;
    u64 r_59;
    u64 r_nl;
    r_mb = ldp(a_2);
    r_qw = ld64((a_2 + 8));
    r_rv = ldp((a_2 + 16));
    r_qw_1 = ld64((a_2 + 24));
    r_rv_1 = ldp((a_2 + 32));
    r_qw_2 = ld64((a_2 + 40));
    r_rv_2 = ldp((a_2 + 48));
    r_qw_3 = ld64((a_2 + 56));
    memset(slot_6, 0u, 64);
    memset(slot_5, 0u, 64);
    memset(slot_3, 0u, 64);
    st32(slot_4, 2u);
    r_ix = (slot_4 + 4);
    memset(r_ix, 0u, 1132);
    r_s4 = (slot_4 + 1136);
    st32(r_s4, 32u);
    r_uy = (slot_4 + 1140);
    r_ky = (slot_4 + 1152);
    memset(r_uy, 0u, 12);
    st64(r_ky, 0xffffffffffffffffull);
    r_lp = (slot_4 + 1160);
    memset(r_lp, 0u, 16);
    mv24(slot_1, r_s4);
    st32(r_s4, 32u);
    memset(r_uy, 0u, 12);
    st64(r_ky, 0xffffffffffffffffull);
    if (r_qw == 0ull) { r_5a = 0ull; goto l_then_7z; }
    r_e1 = (slot_4 + 1032);
    r_9w = 0ull;
    r_uj = r_qw;
    r_35 = r_mb;
l_arm_65:;
    r_62 = away(r_35, 1ull);
    r_zn = (r_uj + 0xffffffffffffffffull);
    r_47 = ld8(r_35);
    if (!(r_9w > 1023ull)) { r_km = r_9w; goto l_std_41; }
    u8 r_m5 = std_io_io_buffer_Buffer_flush(slot_4);
    u64 r_38 = ld64(r_e1);
    if (r_m5 ? (r_38 < 1024ull) : 0u) { r_km = r_38; goto l_std_41; }
    goto l_core_pf;
l_std_41:;
    st8((r_ix + (i64)(r_km)), r_47);
    r_c4 = (r_km + 1ull);
    st64(r_e1, r_c4);
    if (!(r_zn == 0ull)) { r_9w = r_c4; r_uj = r_zn; r_35 = r_62; goto l_arm_65; }
    u8 t_ts = (ld64(r_lp) == 0ull);
    st32(r_s4, 32u);
    memset(r_uy, 0u, 12);
    st64(r_ky, 0xffffffffffffffffull);
    if (t_ts) { r_5a = r_c4; goto l_then_7z; }
    goto l_core_rq;
l_then_7z:;
    if (!(r_qw_1 == 0ull)) goto l_arm_yd;
    st32(r_s4, 32u);
    memset(r_uy, 0u, 12);
    st64(r_ky, 0xffffffffffffffffull);
    goto l_then_7z_1;
l_arm_yd:;
    r_e1_1 = (slot_4 + 1032);
    r_9w_1 = r_5a;
    r_uj_1 = r_qw_1;
    r_35_1 = r_rv;
l_arm_65_1:;
    r_62_1 = away(r_35_1, 1ull);
    r_zn_1 = (r_uj_1 + 0xffffffffffffffffull);
    r_47_1 = ld8(r_35_1);
    if (!(r_9w_1 > 1023ull)) { r_km_1 = r_9w_1; goto l_std_41_1; }
    u8 r_m5_1 = std_io_io_buffer_Buffer_flush(slot_4);
    u64 r_38_1 = ld64(r_e1_1);
    if (r_m5_1 ? (r_38_1 < 1024ull) : 0u) { r_km_1 = r_38_1; goto l_std_41_1; }
    goto l_core_pf;
l_std_41_1:;
    st8((r_ix + (i64)(r_km_1)), r_47_1);
    u64 r_c4_1 = (r_km_1 + 1ull);
    st64(r_e1_1, r_c4_1);
    if (r_zn_1 == 0ull) goto l_arm_g6;
    r_9w_1 = r_c4_1;
    r_uj_1 = r_zn_1;
    r_35_1 = r_62_1;
    goto l_arm_65_1;
l_core_rq:;
    u8 r_sr = core_fmt_formatter_Formatter_write_indented_bf264aed5fa78656(slot_4, r_rv, r_qw_1);
    if (!(r_sr == 0u)) goto l_core_pf;
l_arm_g6:;
    u64 r_38_2 = ld64(r_lp);
    st32(r_s4, 32u);
    memset(r_uy, 0u, 12);
    st64(r_ky, 0xffffffffffffffffull);
    if (!(r_38_2 == 0ull)) goto l_core_rq_1;
l_then_7z_1:;
    if (r_qw_2 == 0ull) goto l_arm_1p;
    r_e1_2 = (slot_4 + 1032);
    r_9w_2 = ld64(r_e1_2);
    r_uj_2 = r_qw_2;
    r_35_2 = r_rv_1;
l_arm_65_2:;
    r_62_2 = away(r_35_2, 1ull);
    r_zn_2 = (r_uj_2 + 0xffffffffffffffffull);
    r_47_2 = ld8(r_35_2);
    if (!(r_9w_2 > 1023ull)) { r_km_2 = r_9w_2; goto l_std_41_2; }
    u8 r_m5_2 = std_io_io_buffer_Buffer_flush(slot_4);
    u64 r_38_3 = ld64(r_e1_2);
    if (r_m5_2 ? (r_38_3 < 1024ull) : 0u) { r_km_2 = r_38_3; goto l_std_41_2; }
    goto l_core_pf;
l_std_41_2:;
    st8((r_ix + (i64)(r_km_2)), r_47_2);
    u64 r_c4_2 = (r_km_2 + 1ull);
    st64(r_e1_2, r_c4_2);
    if (r_zn_2 == 0ull) goto l_arm_1p;
    r_9w_2 = r_c4_2;
    r_uj_2 = r_zn_2;
    r_35_2 = r_62_2;
    goto l_arm_65_2;
l_core_rq_1:;
    u8 r_sr_1 = core_fmt_formatter_Formatter_write_indented_bf264aed5fa78656(slot_4, r_rv_1, r_qw_2);
    if (!(r_sr_1 == 0u)) goto l_core_pf;
l_arm_1p:;
    st32(r_s4, 32u);
    memset(r_uy, 0u, 12);
    st64(r_ky, 0xffffffffffffffffull);
    if (!(ld64(r_lp) == 0ull)) goto l_core_id;
    if (r_qw_3 == 0ull) goto l_core_3b;
    r_e1_3 = (slot_4 + 1032);
    r_9w_3 = ld64(r_e1_3);
    r_uj_3 = r_qw_3;
    r_35_3 = r_rv_2;
l_arm_65_3:;
    r_62_3 = away(r_35_3, 1ull);
    r_zn_3 = (r_uj_3 + 0xffffffffffffffffull);
    r_47_3 = ld8(r_35_3);
    if (!(r_9w_3 > 1023ull)) { r_km_3 = r_9w_3; goto l_std_41_3; }
    u8 r_m5_3 = std_io_io_buffer_Buffer_flush(slot_4);
    u64 r_38_4 = ld64(r_e1_3);
    if (r_m5_3 ? (r_38_4 < 1024ull) : 0u) { r_km_3 = r_38_4; goto l_std_41_3; }
    goto l_core_pf;
l_std_41_3:;
    st8((r_ix + (i64)(r_km_3)), r_47_3);
    u64 r_c4_3 = (r_km_3 + 1ull);
    st64(r_e1_3, r_c4_3);
    if (r_zn_3 == 0ull) goto l_core_3b;
    r_9w_3 = r_c4_3;
    r_uj_3 = r_zn_3;
    r_35_3 = r_62_3;
    goto l_arm_65_3;
l_core_pf:;
    mv24(r_s4, slot_1);
    r_b2 = 0u;
    goto l_join_2k;
l_core_3b:;
    mv24(r_s4, slot_1);
    goto l_arm_9c;
l_core_id:;
    u8 r_sr_2 = core_fmt_formatter_Formatter_write_indented_bf264aed5fa78656(slot_4, r_rv_2, r_qw_3);
    mv24(r_s4, slot_1);
    if (!(r_sr_2 == 0u)) { r_b2 = 0u; goto l_join_2k; }
l_arm_9c:;
    mv24(slot_1, r_s4);
    st32(r_s4, 32u);
    memset(r_uy, 0u, 12);
    st64(r_ky, 0xffffffffffffffffull);
    if (!(ld64(r_lp) == 0ull)) goto l_else_7o;
    r_e1_4 = (slot_4 + 1032);
    u64 r_38_5 = ld64(r_e1_4);
    if (!(r_38_5 > 1023ull)) { r_4x = r_38_5; goto l_std_vs; }
    u8 r_m5_4 = std_io_io_buffer_Buffer_flush(slot_4);
    u64 r_38_6 = ld64(r_e1_4);
    if (r_m5_4 ? (r_38_6 < 1024ull) : 0u) { r_4x = r_38_6; goto l_std_vs; }
    r_bu = 0u;
    goto l_core_pf_1;
l_std_vs:;
    st8((r_ix + (i64)(r_4x)), 10u);
    st64(r_e1_4, (r_4x + 1ull));
    r_bu = 1u;
    goto l_core_pf_1;
l_else_7o:;
    u8 r_9h = core_fmt_formatter_Formatter_write_indented_bf264aed5fa78656(slot_4, ((u8 *)g_static_7), 1ull);
    r_bu = (r_9h == 0u);
l_core_pf_1:;
    mv24(r_s4, slot_1);
    r_b2 = r_bu;
l_join_2k:;
    st32(slot_1, ld32(slot_4));
    memcpy((slot_1 + 4), r_ix, 1132);
    u8 r_vx = std_io_io_buffer_Buffer_flush(slot_1);
    if (!(u8)((u8)r_b2 & (u8)r_vx)) goto l_join_to;
    memset(slot_3, 0u, 64);
    r_u5 = 0u;
    r_mz = 0u;
    r_pi = 0u;
    r_gx = 0u;
    r_wb = 0u;
    r_8b = 0u;
    r_59 = 0ull;
    r_nl = 0ull;
    goto l_std_jl;
l_join_to:;
    if (!(ld8((slot_1 + 1040)) == 1u)) goto l_arm_or;
    u8 r_r5 = ld8((slot_1 + 1048));
    u8 r_dd = ld8((slot_1 + 1049));
    u8 r_sw = ld8((slot_1 + 1050));
    u8 r_dd_1 = ld8((slot_1 + 1051));
    u32 r_uq = ld32((slot_1 + 1052));
    u64 r_38_7 = ld64((slot_1 + 1056));
    u64 r_38_8 = ld64((slot_1 + 1064));
    mv64(slot_2, (slot_1 + 1072));
    r_jt = r_r5;
    r_qc = r_dd;
    r_yd = r_sw;
    r_x1 = r_dd_1;
    r_g6 = r_uq;
    r_qc_1 = r_38_7;
    r_bi = r_38_8;
    goto l_join_qx;
l_arm_or:;
    memset(slot_2, 46u, 64);
    r_jt = 2u;
    r_qc = 41u;
    r_yd = 15u;
    r_x1 = 0u;
    r_g6 = 0u;
    r_qc_1 = 0x657474616d726f66ull;
    r_bi = 0x2e726f7272652072ull;
l_join_qx:;
    mv64(slot_3, slot_2);
    r_u5 = 1u;
    r_mz = r_jt;
    r_pi = r_qc;
    r_gx = r_yd;
    r_wb = r_x1;
    r_8b = r_g6;
    r_59 = r_qc_1;
    r_nl = r_bi;
l_std_jl:;
    mv64(slot_5, slot_3);
    mv64(slot_6, slot_5);
    st8(a_1, r_u5);
    st8(away(a_1, 8ull), r_mz);
    st8(away(a_1, 9ull), r_pi);
    st8(away(a_1, 10ull), r_gx);
    st8(away(a_1, 11ull), r_wb);
    st32(away(a_1, 12ull), r_8b);
    st64(away(a_1, 16ull), r_59);
    st64(away(a_1, 24ull), r_nl);
    mv64(away(a_1, 32ull), slot_6);
    return;
}

/* core::fmt::formatter::Formatter::write_indented::<#b6936a32b1fe2110> */
NEVER COLD u8 core_fmt_formatter_Formatter_write_indented_b6936a32b1fe2110(u8 *a_1, u8 *a_2, u64 a_3)
{
    u64 r_4q;
    u64 r_11;
    u64 r_36;
    u64 r_9y;
    u64 r_c4;
    u8 r_fk;
    if (a_3 == 0ull) { r_c4 = 0ull; goto l_after_xu; }
    r_4q = 0ull;
    r_11 = 0ull;
l_core_q2:;
    r_36 = (r_11 + 1ull);
    if (!(ld8((a_2 + (i64)(r_11))) == 10u)) { r_9y = r_4q; goto l_join_lk; }
    u8 r_8z = core_fmt_formatter_Formatter_write_indented_line_b6936_43eaca3d(a_1, away(a_2, ((r_4q > r_36) ? 0ull : r_4q)), usub_sat64(r_36, r_4q), 1u);
    if ((u8)(r_8z & 1)) { r_fk = 1u; goto l_return_ri; }
    r_9y = r_36;
l_join_lk:;
    if (r_36 == a_3) { r_c4 = r_9y; goto l_after_xu; }
    r_4q = r_9y;
    r_11 = r_36;
    goto l_core_q2;
l_after_xu:;
    u8 r_f8 = core_fmt_formatter_Formatter_write_indented_line_b6936_43eaca3d(a_1, away(a_2, ((r_c4 > a_3) ? 0ull : r_c4)), usub_sat64(a_3, r_c4), 0u);
    r_fk = r_f8;
l_return_ri:;
    return r_fk;
}

/* core::fmt::formatter::Formatter::write_indented_line::<#b6936a32b1fe2110> */
static u8 core_fmt_formatter_Formatter_write_indented_line_b6936_43eaca3d(u8 *a_1, u8 *a_2, u64 a_3, u8 a_4)
{
    u8 *r_r2;
    u64 r_52;
    u8 *r_08;
    u8 *r_rq;
    u64 r_xr;
    u64 r_2o;
    u64 r_r4;
    u64 r_tg;
    u64 r_99;
    u8 *r_08_1;
    u8 *r_rq_1;
    u64 r_0p;
    u64 r_fj;
    u64 r_zx;
    u8 *r_fx_1;
    u8 *r_2b;
    u64 r_31;
    u8 r_fk;
    if (a_3 == 0ull) { r_fk = 0u; goto l_return_ri; }
    r_r2 = away(a_1, 56ull);
    if (!(u8)(ld8(r_r2) & 1)) goto l_arm_an;
    r_52 = ld64(away(a_1, 48ull));
    if (r_52 == 0ull) goto l_arm_an;
    r_08 = away(a_1, 16ull);
    r_rq = away(a_1, 8ull);
    r_xr = ld64(r_rq);
    r_2o = ld64(r_08);
    r_r4 = 0ull;
l_join_r4:;
    if (!((r_2o - r_xr) < 4ull)) { r_tg = r_2o; r_99 = r_xr; goto l_join_bu; }
    u8 r_ig = std_alloc_vec_Vec_grow_amortized_f0820c3131a574aa(a_1, 4ull);
    if (!r_ig) { r_fk = 1u; goto l_return_ri; }
    r_tg = ld64(r_08);
    r_99 = ld64(r_rq);
l_join_bu:;
    u64 r_5b = (r_99 + 4ull);
    u8 *r_fx = ldp(a_1);
    st32(away(r_fx, r_99), 0x20202020u);
    stp(a_1, r_fx);
    st64(r_rq, r_5b);
    st64(r_08, r_tg);
    u64 r_36 = (r_r4 + 1ull);
    if (!(r_36 == r_52)) { r_xr = r_5b; r_2o = r_tg; r_r4 = r_36; goto l_join_r4; }
l_arm_an:;
    st8(r_r2, (u8)a_4);
    u8 r_ne = core_fmt_utf8_is_utf8(a_2, a_3);
    if (!r_ne) { r_fk = 1u; goto l_return_ri; }
    r_08_1 = away(a_1, 16ull);
    u64 r_52_1 = ld64(r_08_1);
    r_rq_1 = away(a_1, 8ull);
    u64 r_52_2 = ld64(r_rq_1);
    if (!(a_3 > (r_52_1 - r_52_2))) { r_0p = r_52_1; r_fj = r_52_2; goto l_join_8y; }
    u8 r_h9 = std_alloc_vec_Vec_grow_amortized_f0820c3131a574aa(a_1, a_3);
    if (!r_h9) { r_fk = 1u; goto l_return_ri; }
    r_0p = ld64(r_08_1);
    r_fj = ld64(r_rq_1);
l_join_8y:;
    r_zx = (r_fj + a_3);
    r_fx_1 = ldp(a_1);
    memset(r_rq_1, 0u, 16);
    r_2b = away(r_fx_1, r_fj);
    if (((u64)(uptr)r_2b - (u64)(uptr)a_2) < a_3) { r_31 = 0ull; goto l_join_sz; }
    memmove_or_none(r_2b, a_2, a_3);
    goto l_core_x2;
l_join_sz:;
    st8((r_2b + (i64)(r_31)), ld8((a_2 + (i64)(r_31))));
    u64 r_36_1 = (r_31 + 1ull);
    if (!(r_36_1 == a_3)) { r_31 = r_36_1; goto l_join_sz; }
l_core_x2:;
    stp(a_1, r_fx_1);
    st64(r_rq_1, r_zx);
    st64(r_08_1, r_0p);
    r_fk = 0u;
l_return_ri:;
    return r_fk;
}

/* core::fmt::formatter::Formatter::write_char_n_times::<#b6936a32b1fe2110> */
static u8 core_fmt_formatter_Formatter_write_char_n_times_b6936a_f8339ab4(u8 *a_1, u32 a_2, u64 a_3)
{
    A(1) u8 slot_1[16];
    A(4) u8 slot_2[4];
    A(8) u8 slot_3[24];
    u8 *sink_p9;
    u8 *sink_u0;
    u8 *sink_e6;
    u8 *r_t9;
    u8 *r_08;
    u8 *r_rq;
    u64 r_9x;
    u64 r_3h;
    u64 r_fu;
    u64 r_ls;
    u8 *r_08_1;
    u8 *r_rq_1;
    u64 r_kp;
    u64 r_ai;
    u8 r_ww;
    u8 *sink_se;
    u8 r_3c;
    u64 r_te;
    u8 *r_xw;
    u64 r_38;
    u8 *r_t9_1;
    u8 *r_08_2;
    u8 *r_rq_2;
    u64 r_tz;
    u64 r_9x_1;
    u64 r_18;
    u64 r_2p;
    u64 r_5q;
    u8 *r_fx_2;
    u8 *r_2b;
    u64 r_il;
    u8 r_fk;
    memset(slot_3, 0u, 24);
    sink_p9 = (slot_2 + 1);
    sink_u0 = (slot_2 + 2);
    sink_e6 = (slot_2 + 3);
    if (!(a_2 < 128u)) goto l_join_51;
    memset(slot_1, (u8)a_2, 16);
    if (!(a_3 > 16ull)) { r_ls = a_3; goto l_after_ip; }
    r_t9 = away(a_1, 48ull);
    r_08 = away(a_1, 16ull);
    r_rq = away(a_1, 8ull);
    r_9x = a_3;
l_join_de:;
    if (!(ld64(r_t9) == 0ull)) goto l_core_t8;
    u64 r_52 = ld64(r_08);
    u64 r_52_1 = ld64(r_rq);
    if (!((r_52 - r_52_1) < 16ull)) { r_3h = r_52; r_fu = r_52_1; goto l_join_1j; }
    u8 r_s8 = std_alloc_vec_Vec_grow_amortized_f0820c3131a574aa(a_1, 16ull);
    if (!r_s8) { r_ww = 1u; goto l_core_2s; }
    r_3h = ld64(r_08);
    r_fu = ld64(r_rq);
l_join_1j:;
    u8 *r_fx = ldp(a_1);
    mv16(away(r_fx, r_fu), slot_1);
    stp(a_1, r_fx);
    st64(r_rq, (r_fu + 16ull));
    st64(r_08, r_3h);
    goto l_arm_wa;
l_core_t8:;
    u8 r_qw = core_fmt_formatter_Formatter_write_indented_b6936a32b1fe2110(a_1, slot_1, 16ull);
    if ((u8)(r_qw & 1)) { r_ww = 1u; goto l_core_2s; }
l_arm_wa:;
    u64 r_ao = (r_9x + 0xfffffffffffffff0ull);
    if (r_ao > 16ull) { r_9x = r_ao; goto l_join_de; }
    r_ls = r_ao;
l_after_ip:;
    if (!(ld64(away(a_1, 48ull)) == 0ull)) goto l_else_ug;
    r_08_1 = away(a_1, 16ull);
    u64 r_52_2 = ld64(r_08_1);
    r_rq_1 = away(a_1, 8ull);
    u64 r_52_3 = ld64(r_rq_1);
    if (!(r_ls > (r_52_2 - r_52_3))) { r_kp = r_52_2; r_ai = r_52_3; goto l_join_o0; }
    u8 r_6p = std_alloc_vec_Vec_grow_amortized_f0820c3131a574aa(a_1, r_ls);
    if (!r_6p) { r_ww = 1u; goto l_core_2s; }
    r_kp = ld64(r_08_1);
    r_ai = ld64(r_rq_1);
l_join_o0:;
    u8 *r_fx_1 = ldp(a_1);
    memcpy_or_none(away(r_fx_1, r_ai), slot_1, r_ls);
    stp(a_1, r_fx_1);
    st64(r_rq_1, (r_ai + r_ls));
    st64(r_08_1, r_kp);
    r_ww = 0u;
    goto l_core_2s;
l_else_ug:;
    u8 r_fo = core_fmt_formatter_Formatter_write_indented_b6936a32b1fe2110(a_1, slot_1, r_ls);
    r_ww = r_fo;
l_core_2s:;
    r_fk = r_ww;
    goto l_return_ri;
l_join_51:;
    st32(slot_2, 0u);
    if (!(a_2 < 2048u)) goto l_else_fp;
    st8(slot_2, (u8)((u8)(u32)(a_2 >> 6u) | 192u));
    sink_se = sink_p9;
    r_3c = (u8)((u8)((u8)a_2 & 63u) | 128u);
    r_te = 2ull;
    goto l_core_kp;
l_else_fp:;
    if ((u8)((u8)(a_2 < 55296u) | (u8)((a_2 + 0xffff2000u) < 0x102000u))) goto l_else_00;
    st8(slot_2, 239u);
    st8(sink_p9, 191u);
    sink_se = sink_u0;
    r_3c = 189u;
    r_te = 3ull;
    goto l_core_kp;
l_else_00:;
    if (!(a_2 < 0x10000u)) goto l_else_t5;
    st8(slot_2, (u8)((u8)(u32)(a_2 >> 12u) | 224u));
    st8(sink_p9, (u8)((u8)((u8)(u32)(a_2 >> 6u) & 63u) | 128u));
    sink_se = sink_u0;
    r_3c = (u8)((u8)((u8)a_2 & 63u) | 128u);
    r_te = 3ull;
    goto l_core_kp;
l_else_t5:;
    st8(slot_2, (u8)((u8)(u32)(a_2 >> 18u) | 240u));
    st8(sink_p9, (u8)((u8)((u8)(u32)(a_2 >> 12u) & 63u) | 128u));
    st8(sink_u0, (u8)((u8)((u8)(u32)(a_2 >> 6u) & 63u) | 128u));
    sink_se = sink_e6;
    r_3c = (u8)((u8)((u8)a_2 & 63u) | 128u);
    r_te = 4ull;
l_core_kp:;
    st8(sink_se, r_3c);
    core_str_utf8_from_utf8(slot_3, slot_2, r_te);
    if (!(ld8(slot_3) == 0u)) { r_fk = 1u; goto l_return_ri; }
    r_xw = ldp((slot_3 + 8));
    r_38 = ld64((slot_3 + 16));
    r_t9_1 = away(a_1, 48ull);
    r_08_2 = away(a_1, 16ull);
    r_rq_2 = away(a_1, 8ull);
    r_tz = (u64)(uptr)r_xw;
    r_9x_1 = 0ull;
l_join_de_1:;
    if (!(ld64(r_t9_1) == 0ull)) goto l_core_ac;
    u64 r_52_4 = ld64(r_08_2);
    u64 r_52_5 = ld64(r_rq_2);
    if (!(r_38 > (r_52_4 - r_52_5))) { r_18 = r_52_4; r_2p = r_52_5; goto l_join_ep; }
    u8 r_6p_1 = std_alloc_vec_Vec_grow_amortized_f0820c3131a574aa(a_1, r_38);
    if (!r_6p_1) { r_fk = 1u; goto l_return_ri; }
    r_18 = ld64(r_08_2);
    r_2p = ld64(r_rq_2);
l_join_ep:;
    r_5q = (r_2p + r_38);
    r_fx_2 = ldp(a_1);
    memset(r_rq_2, 0u, 16);
    r_2b = away(r_fx_2, r_2p);
    if (((u64)(uptr)r_2b - r_tz) < r_38) { r_il = 0ull; goto l_join_fh; }
    memmove_or_none(r_2b, r_xw, r_38);
    goto l_core_aw;
l_join_fh:;
    st8((r_2b + (i64)(r_il)), ld8((r_xw + (i64)(r_il))));
    u64 r_36 = (r_il + 1ull);
    if (!(r_36 == r_38)) { r_il = r_36; goto l_join_fh; }
l_core_aw:;
    stp(a_1, r_fx_2);
    st64(r_rq_2, r_5q);
    st64(r_08_2, r_18);
    goto l_arm_90;
l_core_ac:;
    u8 r_e9 = core_fmt_formatter_Formatter_write_indented_b6936a32b1fe2110(a_1, r_xw, r_38);
    if ((u8)(r_e9 & 1)) { r_fk = 1u; goto l_return_ri; }
l_arm_90:;
    u64 r_36_1 = (r_9x_1 + 1ull);
    if (r_36_1 == a_3) { r_fk = 0u; goto l_return_ri; }
    r_9x_1 = r_36_1;
    goto l_join_de_1;
l_return_ri:;
    return r_fk;
}

/* core::fmt::formatter::Formatter::cut_and_fill::<#b6936a32b1fe2110> */
NEVER u8 core_fmt_formatter_Formatter_cut_and_fill_b6936a32b1fe2110(u8 *a_1, u8 *a_2, u64 a_3)
{
    u64 r_9x;
    u64 r_8y;
    u64 r_vo;
    u64 common_vw;
    u64 common_t3;
    u64 common_yk;
    u8 *r_xz;
    u64 r_no;
    u64 r_ib;
    u64 r_dr;
    u64 r_ov;
    u32 r_yf;
    u64 r_fq;
    u32 r_v0;
    u8 *r_08;
    u8 *r_rq;
    u64 r_m0;
    u64 r_ib_1;
    u64 r_2n;
    u8 *r_fx;
    u8 *r_2b;
    u64 r_31;
    u8 r_fk;
    u64 r_52 = ld64(away(a_1, 40ull));
    if (a_3 > r_52) { r_9x = r_52; r_8y = 0ull; goto l_join_s1; }
    common_vw = a_3;
    goto l_join_tc;
l_join_s1:;
    if (!((i8)ld8((a_2 + (i64)(r_8y))) > (i8)191u)) { r_vo = r_9x; goto l_join_66; }
    if (r_9x == 0ull) goto l_core_mb;
    r_vo = (r_9x + 0xffffffffffffffffull);
l_join_66:;
    u64 r_36 = (r_8y + 1ull);
    if (r_36 == a_3) { common_t3 = a_3; goto l_core_1u; }
    r_9x = r_vo;
    r_8y = r_36;
    goto l_join_s1;
l_core_mb:;
    if (a_3 < r_8y) { r_fk = 1u; goto l_return_ri; }
    common_vw = r_8y;
l_join_tc:;
    if (a_3 == 0ull) { common_yk = common_vw; goto l_join_1x; }
    common_t3 = common_vw;
l_core_1u:;
    if ((i8)ld8(a_2) > (i8)191u) { common_yk = common_t3; goto l_join_1x; }
    r_fk = 1u;
    goto l_return_ri;
l_join_1x:;
    if (common_yk == a_3) goto l_arm_xa;
    if (!((i8)ld8((a_2 + (i64)(common_yk))) > (i8)191u)) { r_fk = 1u; goto l_return_ri; }
l_arm_xa:;
    r_xz = away(a_1, 24ull);
    u64 r_52_1 = ld64(away(a_1, 32ull));
    if ((u8)((u8)(common_yk == 0ull) | (u8)(r_52_1 == 0ull))) { r_dr = r_52_1; goto l_core_be; }
    r_no = r_52_1;
    r_ib = 0ull;
l_join_ui:;
    u64 spec_5q = (r_no + (u64)(0 - (u64)((i8)ld8(away(a_2, r_ib)) > (i8)191u)));
    u64 r_36_1 = (r_ib + 1ull);
    if ((r_36_1 >= common_yk) ? 1u : (spec_5q == 0ull)) { r_dr = spec_5q; goto l_core_be; }
    r_no = spec_5q;
    r_ib = r_36_1;
    goto l_join_ui;
l_core_be:;
    switch (umax8(ld8(away(a_1, 28ull)), 1u)) {
    case 1u: goto l_core_h6;
    case 2u: goto l_then_j0;
    default: { r_ov = r_dr; goto l_core_yu; }
    }
l_core_h6:;
    r_fq = 0ull;
    r_v0 = ld32(r_xz);
    goto l_arm_4x;
l_then_j0:;
    r_ov = (u64)(r_dr >> 1ull);
l_core_yu:;
    r_yf = ld32(r_xz);
    if (r_ov == 0ull) { r_fq = 0ull; r_v0 = r_yf; goto l_arm_4x; }
    u8 r_pr = core_fmt_formatter_Formatter_write_char_n_times_b6936a_f8339ab4(a_1, r_yf, r_ov);
    if ((u8)(r_pr & 1)) { r_fk = 1u; goto l_return_ri; }
    r_fq = r_ov;
    r_v0 = r_yf;
l_arm_4x:;
    if (!(ld64(away(a_1, 48ull)) == 0ull)) goto l_core_4s;
    r_08 = away(a_1, 16ull);
    u64 r_52_2 = ld64(r_08);
    r_rq = away(a_1, 8ull);
    u64 r_52_3 = ld64(r_rq);
    if (!(common_yk > (r_52_2 - r_52_3))) { r_m0 = r_52_2; r_ib_1 = r_52_3; goto l_join_nd; }
    u8 r_3w = std_alloc_vec_Vec_grow_amortized_f0820c3131a574aa(a_1, common_yk);
    if (!r_3w) { r_fk = 1u; goto l_return_ri; }
    r_m0 = ld64(r_08);
    r_ib_1 = ld64(r_rq);
l_join_nd:;
    r_2n = (r_ib_1 + common_yk);
    r_fx = ldp(a_1);
    memset(r_rq, 0u, 16);
    r_2b = away(r_fx, r_ib_1);
    if (((u64)(uptr)r_2b - (u64)(uptr)a_2) < common_yk) { r_31 = 0ull; goto l_join_sz; }
    memmove_or_none(r_2b, a_2, common_yk);
    goto l_core_aw;
l_join_sz:;
    st8((r_2b + (i64)(r_31)), ld8((a_2 + (i64)(r_31))));
    u64 r_36_2 = (r_31 + 1ull);
    if (!(r_36_2 == common_yk)) { r_31 = r_36_2; goto l_join_sz; }
l_core_aw:;
    stp(a_1, r_fx);
    st64(r_rq, r_2n);
    st64(r_08, r_m0);
    goto l_arm_vh;
l_core_4s:;
    u8 r_dl = core_fmt_formatter_Formatter_write_indented_b6936a32b1fe2110(a_1, a_2, common_yk);
    if ((u8)(r_dl & 1)) { r_fk = 1u; goto l_return_ri; }
l_arm_vh:;
    if (!(r_dr > r_fq)) { r_fk = 0u; goto l_return_ri; }
    u8 r_pr_1 = core_fmt_formatter_Formatter_write_char_n_times_b6936a_f8339ab4(a_1, r_v0, (r_dr - r_fq));
    r_fk = r_pr_1;
l_return_ri:;
    return r_fk;
}

/* core::fmt::formatter::Formatter::write_piece::<#cd5e334430faecd3> */
u8 core_fmt_formatter_Formatter_write_piece_cd5e334430faecd3(u8 *a_1, u8 *a_2)
{
    A(8) u8 slot_1[41];
    A(8) u8 slot_2[24];
    A(8) u8 slot_3[256];
    u8 *r_p7;
    u8 *r_ix;
    u8 *r_g7;
    u8 *r_fn;
    u8 *r_fx;
    u64 r_sm;
    u64 common_35;
    u64 r_38;
    u8 *r_ty;
    u64 r_vj;
    u32 r_yf;
    u8 *r_89;
    u8 *r_ym;
    u8 *r_1x;
    u64 r_9w;
    u64 r_uj;
    u8 *r_35;
    u8 *r_62;
    u64 r_zn;
    u8 r_47;
    u64 r_km;
    u8 *r_ym_1;
    u8 *r_1x_1;
    u64 r_pv;
    u64 r_m0;
    u8 *r_w9;
    u8 *r_62_1;
    u64 r_0f;
    u8 r_47_1;
    u64 r_km_1;
    u8 r_06;
    u64 r_10;
    u64 r_hc;
    u64 r_zp;
    u64 r_c0;
    u8 r_qb_1;
    u64 common_1h;
    u64 r_8y;
    u8 *r_2b;
    u64 r_lb;
    u8 *r_ym_2;
    u8 *r_1x_2;
    u64 r_9w_1;
    u64 r_uj_1;
    u8 *r_35_1;
    u8 *r_62_2;
    u64 r_zn_2;
    u8 r_47_2;
    u64 r_km_2;
    u8 *r_ym_3;
    u8 *r_1x_3;
    u64 r_lb_1;
    u8 r_ot;
    u8 r_47_3;
    u8 r_ts;
    u8 *r_ym_4;
    u8 *r_1x_4;
    u64 r_pv_1;
    u64 r_m0_1;
    u8 *r_w9_1;
    u8 *r_62_3;
    u64 r_0f_1;
    u8 r_47_4;
    u64 r_km_3;
    u8 *r_ym_5;
    u8 *r_1x_5;
    u64 r_pv_2;
    u64 r_m0_2;
    u8 *r_w9_2;
    u8 *r_62_4;
    u64 r_0f_2;
    u8 r_47_5;
    u64 r_km_4;
    u8 *r_ym_6;
    u8 *r_1x_6;
    u64 r_pv_3;
    u64 r_m0_3;
    u8 *r_w9_3;
    u8 *r_62_5;
    u64 r_0f_3;
    u8 r_47_6;
    u64 r_km_5;
    u8 *r_ym_7;
    u8 *r_1x_7;
    u64 r_pv_4;
    u64 r_m0_4;
    u8 *r_w9_4;
    u8 *r_62_6;
    u64 r_0f_4;
    u8 r_47_7;
    u64 r_km_6;
    u8 *r_ym_8;
    u8 *r_1x_8;
    u64 r_pv_5;
    u64 r_m0_5;
    u8 *r_w9_5;
    u8 *r_62_7;
    u64 r_0f_5;
    u8 r_47_8;
    u64 r_km_7;
    u8 *r_ym_9;
    u8 *r_1x_9;
    u64 r_pv_6;
    u64 r_m0_6;
    u8 *r_w9_6;
    u8 *r_62_8;
    u64 r_0f_6;
    u8 r_47_9;
    u64 r_km_8;
    u8 *r_ym_10;
    u8 *r_1x_10;
    u64 r_pv_7;
    u64 r_m0_7;
    u8 *r_w9_7;
    u8 *r_62_9;
    u64 r_0f_7;
    u8 r_47_10;
    u64 r_km_9;
    u8 *r_ym_11;
    u8 *r_1x_11;
    u64 r_pv_8;
    u64 r_m0_8;
    u8 *r_w9_8;
    u8 *r_62_10;
    u64 r_0f_8;
    u8 r_47_11;
    u64 r_km_10;
    u8 *r_ym_12;
    u8 *r_1x_12;
    u64 r_pv_9;
    u64 r_m0_9;
    u8 *r_w9_9;
    u8 *r_62_11;
    u64 r_0f_9;
    u8 r_47_12;
    u64 r_km_11;
    u8 *r_ym_13;
    u8 *r_1x_13;
    u64 r_pv_10;
    u64 r_m0_10;
    u8 *r_w9_10;
    u8 *r_62_12;
    u64 r_0f_10;
    u8 r_47_13;
    u64 r_km_12;
    u8 *r_ym_14;
    u8 *r_1x_14;
    u64 r_pv_11;
    u64 r_m0_11;
    u8 *r_w9_11;
    u8 *r_62_13;
    u64 r_0f_11;
    u8 r_47_14;
    u64 r_km_13;
    u8 *r_ym_15;
    u8 *r_1x_15;
    u64 r_pv_12;
    u64 r_m0_12;
    u8 *r_w9_12;
    u8 *r_62_14;
    u64 r_0f_12;
    u8 r_47_15;
    u64 r_km_14;
    u8 *r_ym_16;
    u8 *r_1x_16;
    u64 r_pv_13;
    u64 r_m0_13;
    u8 *r_w9_13;
    u8 *r_62_15;
    u64 r_0f_13;
    u8 r_47_16;
    u64 r_km_15;
    u8 *r_ym_17;
    u8 *r_1x_17;
    u64 r_pv_14;
    u64 r_m0_14;
    u8 *r_w9_14;
    u8 *r_62_16;
    u64 r_0f_14;
    u8 r_47_17;
    u64 r_km_16;
    u8 *r_ym_18;
    u8 *r_1x_18;
    u64 r_pv_15;
    u64 r_m0_15;
    u8 *r_w9_15;
    u8 *r_62_17;
    u64 r_0f_15;
    u8 r_47_18;
    u64 r_km_17;
    u8 *r_ym_19;
    u8 *r_1x_19;
    u64 r_pv_16;
    u64 r_m0_16;
    u8 *r_w9_16;
    u8 *r_62_18;
    u64 r_0f_16;
    u8 r_47_19;
    u64 r_km_18;
    u8 *r_ym_20;
    u8 *r_1x_20;
    u64 r_pv_17;
    u64 r_m0_17;
    u8 *r_w9_17;
    u8 *r_62_19;
    u64 r_0f_17;
    u8 r_47_20;
    u64 r_km_19;
    u8 *r_ym_21;
    u8 *r_1x_21;
    u64 r_pv_18;
    u64 r_m0_18;
    u8 *r_w9_18;
    u8 *r_62_20;
    u64 r_0f_18;
    u8 r_47_21;
    u64 r_km_20;
    u8 *r_ym_22;
    u8 *r_1x_22;
    u64 r_pv_19;
    u64 r_m0_19;
    u8 *r_w9_19;
    u8 *r_62_21;
    u64 r_0f_19;
    u8 r_47_22;
    u64 r_km_21;
    u8 *r_ym_23;
    u8 *r_1x_23;
    u64 r_pv_20;
    u64 r_m0_20;
    u8 *r_w9_20;
    u8 *r_62_22;
    u64 r_0f_20;
    u8 r_47_23;
    u64 r_km_22;
    u8 *r_ym_24;
    u8 *r_1x_24;
    u64 r_pv_21;
    u64 r_m0_21;
    u8 *r_w9_21;
    u8 *r_62_23;
    u64 r_0f_21;
    u8 r_47_24;
    u64 r_km_23;
    u8 *r_ym_25;
    u8 *r_1x_25;
    u64 r_pv_22;
    u64 r_m0_22;
    u8 *r_w9_22;
    u8 *r_62_24;
    u64 r_0f_22;
    u8 r_47_25;
    u64 r_km_24;
    u8 *r_ym_26;
    u8 *r_1x_26;
    u64 r_pv_23;
    u64 r_m0_23;
    u8 *r_w9_23;
    u8 *r_62_25;
    u64 r_0f_23;
    u8 r_47_26;
    u64 r_km_25;
    u8 *r_ym_27;
    u8 *r_1x_27;
    u64 r_pv_24;
    u64 r_m0_24;
    u8 *r_w9_24;
    u8 *r_62_26;
    u64 r_0f_24;
    u8 r_47_27;
    u64 r_km_26;
    u8 *r_ym_28;
    u8 *r_1x_28;
    u64 r_pv_25;
    u64 r_m0_25;
    u8 *r_w9_25;
    u8 *r_62_27;
    u64 r_0f_25;
    u8 r_47_28;
    u64 r_km_27;
    u8 *r_ym_29;
    u8 *r_1x_29;
    u64 r_pv_26;
    u64 r_m0_26;
    u8 *r_w9_26;
    u8 *r_62_28;
    u64 r_0f_26;
    u8 r_47_29;
    u64 r_km_28;
    u8 *r_ym_30;
    u8 *r_1x_30;
    u64 r_pv_27;
    u64 r_m0_27;
    u8 *r_w9_27;
    u8 *r_62_29;
    u64 r_0f_27;
    u8 r_47_30;
    u64 r_km_29;
    u8 *r_ym_31;
    u8 *r_1x_31;
    u64 r_pv_28;
    u64 r_m0_28;
    u8 *r_w9_28;
    u8 *r_62_30;
    u64 r_0f_28;
    u8 r_47_31;
    u64 r_km_30;
    u8 *r_ym_32;
    u8 *r_1x_32;
    u64 r_pv_29;
    u64 r_m0_29;
    u8 *r_w9_29;
    u8 *r_62_31;
    u64 r_0f_29;
    u8 r_47_32;
    u64 r_km_31;
    u8 *r_ym_33;
    u8 *r_1x_33;
    u64 r_pv_30;
    u64 r_m0_30;
    u8 *r_w9_30;
    u8 *r_62_32;
    u64 r_0f_30;
    u8 r_47_33;
    u64 r_km_32;
    u8 *r_ym_34;
    u8 *r_1x_34;
    u64 r_pv_31;
    u64 r_m0_31;
    u8 *r_w9_31;
    u8 *r_62_33;
    u64 r_0f_31;
    u8 r_47_34;
    u64 r_km_33;
    u8 *r_ym_35;
    u8 *r_1x_35;
    u64 r_pv_32;
    u64 r_m0_32;
    u8 *r_w9_32;
    u8 *r_62_34;
    u64 r_0f_32;
    u8 r_47_35;
    u64 r_km_34;
    u8 *r_ym_36;
    u8 *r_1x_36;
    u64 r_pv_33;
    u64 r_m0_33;
    u8 *r_w9_33;
    u8 *r_62_35;
    u64 r_0f_33;
    u8 r_47_36;
    u64 r_km_35;
    u8 *r_ym_37;
    u8 *r_1x_37;
    u64 r_pv_34;
    u64 r_m0_34;
    u8 *r_w9_34;
    u8 *r_62_36;
    u64 r_0f_34;
    u8 r_47_37;
    u64 r_km_36;
    u8 *r_ym_38;
    u8 *r_1x_38;
    u64 r_pv_35;
    u64 r_m0_35;
    u8 *r_w9_35;
    u8 *r_62_37;
    u64 r_0f_35;
    u8 r_47_38;
    u64 r_km_37;
    u8 *r_ym_39;
    u8 *r_1x_39;
    u64 r_pv_36;
    u64 r_m0_36;
    u8 *r_w9_36;
    u8 *r_62_38;
    u64 r_0f_36;
    u8 r_47_39;
    u64 r_km_38;
    u8 *r_ym_40;
    u8 *r_1x_40;
    u64 r_pv_37;
    u64 r_m0_37;
    u8 *r_w9_37;
    u8 *r_62_39;
    u64 r_0f_37;
    u8 r_47_40;
    u64 r_km_39;
    u8 *r_ym_41;
    u8 *r_1x_41;
    u64 r_pv_38;
    u64 r_m0_38;
    u8 *r_w9_38;
    u8 *r_62_40;
    u64 r_0f_38;
    u8 r_47_41;
    u64 r_km_40;
    u8 *r_ym_42;
    u8 *r_1x_42;
    u64 r_pv_39;
    u64 r_m0_39;
    u8 *r_w9_39;
    u8 *r_62_41;
    u64 r_0f_39;
    u8 r_47_42;
    u64 r_km_41;
    u8 *r_ym_43;
    u8 *r_1x_43;
    u64 r_pv_40;
    u64 r_m0_40;
    u8 *r_w9_40;
    u8 *r_62_42;
    u64 r_0f_40;
    u8 r_47_43;
    u64 r_km_42;
    u8 *r_ym_44;
    u8 *r_1x_44;
    u64 r_pv_41;
    u64 r_m0_41;
    u8 *r_w9_41;
    u8 *r_62_43;
    u64 r_0f_41;
    u8 r_47_44;
    u64 r_km_43;
    u8 *r_ym_45;
    u8 *r_1x_45;
    u64 r_pv_42;
    u64 r_m0_42;
    u8 *r_w9_42;
    u8 *r_62_44;
    u64 r_0f_42;
    u8 r_47_45;
    u64 r_km_44;
    u8 *r_ym_46;
    u8 *r_1x_46;
    u64 r_9w_2;
    u64 r_uj_2;
    u8 *r_35_2;
    u8 *r_62_45;
    u64 r_zn_3;
    u8 r_47_46;
    u64 r_km_45;
    u8 r_m4;
    r_p7 = away(a_1, 1136ull);
    st32(r_p7, 32u);
    r_ix = away(a_1, 1140ull);
    r_g7 = away(a_1, 1144ull);
    r_fn = away(a_1, 1152ull);
    memset(r_ix, 0u, 12);
    st64(r_fn, 0xffffffffffffffffull);
    r_fx = ldp(a_2);
    memset(slot_3, 0u, 256);
    if (!(ld8(r_fx) == 0u)) goto l_join_x5;
    c_strerror(ld32(away(r_fx, 4ull)), slot_3, 256ull);
    r_sm = 0ull;
l_join_ow:;
    if (ld8((slot_3 + (i64)(r_sm))) == 0u) { common_35 = r_sm; goto l_std_xi; }
    u64 r_c4 = (r_sm + 1ull);
    if (r_c4 == 256ull) { common_35 = 256ull; goto l_std_xi; }
    r_sm = r_c4;
    goto l_join_ow;
l_join_x5:;
    u64 r_52 = ld64(away(r_fx, 16ull));
    u64 r_52_1 = ld64(away(r_fx, 24ull));
    u64 r_52_2 = ld64(away(r_fx, 32ull));
    u64 r_52_3 = ld64(away(r_fx, 40ull));
    u64 r_52_4 = ld64(away(r_fx, 48ull));
    u64 r_52_5 = ld64(away(r_fx, 56ull));
    u64 r_52_6 = ld64(away(r_fx, 64ull));
    u64 r_52_7 = ld64(away(r_fx, 72ull));
    u64 r_52_8 = ld64(away(r_fx, 80ull));
    st64(slot_3, ld64(away(r_fx, 8ull)));
    st64((slot_3 + 8), r_52);
    st64((slot_3 + 16), r_52_1);
    st64((slot_3 + 24), r_52_2);
    st64((slot_3 + 32), r_52_3);
    st64((slot_3 + 40), r_52_4);
    st64((slot_3 + 48), r_52_5);
    st64((slot_3 + 56), r_52_6);
    st64((slot_3 + 64), r_52_7);
    st64((slot_3 + 72), r_52_8);
    common_35 = (u64)ld8(away(r_fx, 2ull));
l_std_xi:;
    memset(slot_1, 0u, 24);
    core_str_utf8_from_utf8(slot_1, slot_3, common_35);
    u8 t_0c = (ld8(slot_1) == 0u);
    r_38 = ld64((slot_1 + 16));
    r_ty = (t_0c ? ldp((slot_1 + 8)) : ((u8 *)g_static_294));
    r_vj = (t_0c ? r_38 : 0ull);
    switch (ld8(r_fx)) {
    case 0u: goto l_arm_cu;
    case 1u: goto l_arm_ks;
    default: goto l_default_5w;
    }
l_arm_cu:;
    r_yf = ld32(away(r_fx, 4ull));
    mv24(slot_2, r_p7);
    st32(r_p7, 32u);
    memset(r_ix, 0u, 12);
    st64(r_fn, 0xffffffffffffffffull);
    r_89 = away(a_1, 1160ull);
    if (!(ld64(r_89) == 0ull)) goto l_core_o3;
    if (r_vj == 0ull) goto l_arm_je;
    r_ym = away(a_1, 1032ull);
    r_1x = away(a_1, 4ull);
    r_9w = ld64(r_ym);
    r_uj = r_38;
    r_35 = r_ty;
l_arm_65:;
    r_62 = away(r_35, 1ull);
    r_zn = (r_uj + 0xffffffffffffffffull);
    r_47 = ld8(r_35);
    if (!(r_9w > 1023ull)) { r_km = r_9w; goto l_std_41; }
    u8 r_ba = std_io_io_buffer_Buffer_flush(a_1);
    if (!r_ba) { r_ot = 1u; goto l_core_27; }
    u64 r_38_1 = ld64(r_ym);
    if (r_38_1 > 1023ull) { r_ot = 1u; goto l_core_27; }
    r_km = r_38_1;
l_std_41:;
    st8((r_1x + (i64)(r_km)), r_47);
    u64 r_c4_1 = (r_km + 1ull);
    st64(r_ym, r_c4_1);
    if (r_zn == 0ull) goto l_arm_ju;
    r_9w = r_c4_1;
    r_uj = r_zn;
    r_35 = r_62;
    goto l_arm_65;
l_core_o3:;
    u8 r_q3 = core_fmt_formatter_Formatter_write_indented_bf264aed5fa78656(a_1, r_ty, r_vj);
    if (!(r_q3 == 0u)) { r_ot = 1u; goto l_core_27; }
l_arm_ju:;
    u64 r_38_2 = ld64(r_89);
    st32(r_p7, 32u);
    memset(r_ix, 0u, 12);
    st64(r_fn, 0xffffffffffffffffull);
    if (!(r_38_2 == 0ull)) goto l_core_5g;
l_arm_je:;
    r_ym_1 = away(a_1, 1032ull);
    r_1x_1 = away(a_1, 4ull);
    r_pv = ld64(r_ym_1);
    r_m0 = 11ull;
    r_w9 = ((u8 *)g_static_62);
l_arm_td:;
    r_62_1 = away(r_w9, 1ull);
    r_0f = (r_m0 + 0xffffffffffffffffull);
    r_47_1 = ld8(r_w9);
    if (!(r_pv > 1023ull)) { r_km_1 = r_pv; goto l_std_41_1; }
    u8 r_ba_1 = std_io_io_buffer_Buffer_flush(a_1);
    if (!r_ba_1) { r_ot = 1u; goto l_core_27; }
    u64 r_38_3 = ld64(r_ym_1);
    if (r_38_3 > 1023ull) { r_ot = 1u; goto l_core_27; }
    r_km_1 = r_38_3;
l_std_41_1:;
    st8((r_1x_1 + (i64)(r_km_1)), r_47_1);
    u64 r_c4_2 = (r_km_1 + 1ull);
    st64(r_ym_1, r_c4_2);
    if (r_0f == 0ull) goto l_arm_fl;
    r_pv = r_c4_2;
    r_m0 = r_0f;
    r_w9 = r_62_1;
    goto l_arm_td;
l_core_5g:;
    u8 r_ub = core_fmt_formatter_Formatter_write_indented_bf264aed5fa78656(a_1, ((u8 *)g_static_62), 11ull);
    if (!(r_ub == 0u)) { r_ot = 1u; goto l_core_27; }
l_arm_fl:;
    st32(r_p7, 32u);
    memset(r_ix, 0u, 12);
    st64(r_fn, 0xffffffffffffffffull);
    r_06 = ((i32)r_yf < (i32)0u);
    u32 t_nb = abs32(r_yf);
    u64 r_r5 = (u64)t_nb;
    memset(slot_1, 0u, 24);
    if (t_nb > 99u) { r_10 = 24ull; r_hc = r_r5; goto l_join_rc; }
    r_zp = r_r5;
    r_c0 = 24ull;
    goto l_after_6x;
l_join_rc:;
    u8 r_qb = (u8)(r_hc % 100ull);
    u8 *t_2b = away(slot_1, r_10);
    st8(away(t_2b, 0xffffffffffffffffull), (u8)((u8)(r_qb % 10u) | 48u));
    st8(away(t_2b, 0xfffffffffffffffeull), (u8)((u8)(r_qb / 10u) | 48u));
    u64 r_kj = (r_hc / 100ull);
    u64 r_50 = (r_10 + 0xfffffffffffffffeull);
    if (r_hc > 9999ull) { r_10 = r_50; r_hc = r_kj; goto l_join_rc; }
    r_zp = r_kj;
    r_c0 = r_50;
l_after_6x:;
    r_qb_1 = (u8)r_zp;
    if (!(r_zp > 9ull)) goto l_join_qo;
    u8 *t_2b_1 = away(slot_1, r_c0);
    st8(away(t_2b_1, 0xffffffffffffffffull), (u8)((u8)(r_qb_1 % 10u) | 48u));
    st8(away(t_2b_1, 0xfffffffffffffffeull), (u8)((u8)(r_qb_1 / 10u) | 48u));
    common_1h = (r_c0 + 0xfffffffffffffffeull);
    goto l_core_14;
l_join_qo:;
    u64 r_zn_1 = (r_c0 + 0xffffffffffffffffull);
    st8((slot_1 + (i64)(r_zn_1)), (u8)(r_qb_1 | 48u));
    common_1h = r_zn_1;
l_core_14:;
    u64 r_7w = (common_1h + 0xffffffffffffffffull);
    st8((slot_1 + (i64)(r_7w)), 45u);
    r_8y = (r_06 ? r_7w : common_1h);
    r_2b = away(slot_1, r_8y);
    r_lb = (24ull - r_8y);
    if (!(ld64(r_89) == 0ull)) goto l_core_z4;
    if (r_8y == 24ull) goto l_core_5s;
    r_ym_2 = away(a_1, 1032ull);
    r_1x_2 = away(a_1, 4ull);
    r_9w_1 = ld64(r_ym_2);
    r_uj_1 = r_lb;
    r_35_1 = r_2b;
l_arm_65_1:;
    r_62_2 = away(r_35_1, 1ull);
    r_zn_2 = (r_uj_1 + 0xffffffffffffffffull);
    r_47_2 = ld8(r_35_1);
    if (!(r_9w_1 > 1023ull)) { r_km_2 = r_9w_1; goto l_std_41_2; }
    u8 r_ba_2 = std_io_io_buffer_Buffer_flush(a_1);
    if (!r_ba_2) goto l_core_8y;
    u64 r_38_4 = ld64(r_ym_2);
    if (r_38_4 > 1023ull) goto l_core_8y;
    r_km_2 = r_38_4;
l_std_41_2:;
    st8((r_1x_2 + (i64)(r_km_2)), r_47_2);
    u64 r_c4_3 = (r_km_2 + 1ull);
    st64(r_ym_2, r_c4_3);
    if (!(r_zn_2 == 0ull)) { r_9w_1 = r_c4_3; r_uj_1 = r_zn_2; r_35_1 = r_62_2; goto l_arm_65_1; }
l_core_5s:;
    goto l_arm_y8;
l_core_8y:;
    r_ot = 1u;
    goto l_core_27;
l_core_z4:;
    u8 r_q3_1 = core_fmt_formatter_Formatter_write_indented_bf264aed5fa78656(a_1, r_2b, r_lb);
    if (!(r_q3_1 == 0u)) { r_ot = 1u; goto l_core_27; }
l_arm_y8:;
    st32(r_p7, 32u);
    memset(r_ix, 0u, 12);
    st64(r_fn, 0xffffffffffffffffull);
    if (!(ld64(r_89) == 0ull)) goto l_else_cb;
    r_ym_3 = away(a_1, 1032ull);
    r_1x_3 = away(a_1, 4ull);
    u64 r_38_5 = ld64(r_ym_3);
    if (!(r_38_5 > 1023ull)) { r_lb_1 = r_38_5; goto l_std_ix; }
    u8 r_ba_3 = std_io_io_buffer_Buffer_flush(a_1);
    if (!r_ba_3) { r_ot = 1u; goto l_core_27; }
    u64 r_38_6 = ld64(r_ym_3);
    if (r_38_6 > 1023ull) { r_ot = 1u; goto l_core_27; }
    r_lb_1 = r_38_6;
l_std_ix:;
    st8((r_1x_3 + (i64)(r_lb_1)), 41u);
    st64(r_ym_3, (r_lb_1 + 1ull));
    r_ot = 0u;
    goto l_core_27;
l_else_cb:;
    u8 r_vg = core_fmt_formatter_Formatter_write_indented_bf264aed5fa78656(a_1, ((u8 *)g_static_63), 1ull);
    r_ot = r_vg;
l_core_27:;
    mv24(r_p7, slot_2);
    r_m4 = r_ot;
    goto l_std_lh;
l_arm_ks:;
    r_47_3 = ld8(away(r_fx, 1ull));
    st8(slot_1, 0u);
    st8((slot_1 + 1), 1u);
    st8((slot_1 + 2), 2u);
    st8((slot_1 + 3), 3u);
    st8((slot_1 + 4), 4u);
    st8((slot_1 + 5), 5u);
    st8((slot_1 + 6), 6u);
    st8((slot_1 + 7), 7u);
    st8((slot_1 + 8), 8u);
    st8((slot_1 + 9), 9u);
    st8((slot_1 + 10), 10u);
    st8((slot_1 + 11), 11u);
    st8((slot_1 + 12), 12u);
    st8((slot_1 + 13), 13u);
    st8((slot_1 + 14), 14u);
    st8((slot_1 + 15), 15u);
    st8((slot_1 + 16), 16u);
    st8((slot_1 + 17), 17u);
    st8((slot_1 + 18), 18u);
    st8((slot_1 + 19), 19u);
    st8((slot_1 + 20), 20u);
    st8((slot_1 + 21), 21u);
    st8((slot_1 + 22), 22u);
    st8((slot_1 + 23), 23u);
    st8((slot_1 + 24), 24u);
    st8((slot_1 + 25), 25u);
    st8((slot_1 + 26), 26u);
    st8((slot_1 + 27), 27u);
    st8((slot_1 + 28), 28u);
    st8((slot_1 + 29), 29u);
    st8((slot_1 + 30), 30u);
    st8((slot_1 + 31), 31u);
    st8((slot_1 + 32), 32u);
    st8((slot_1 + 33), 33u);
    st8((slot_1 + 34), 34u);
    st8((slot_1 + 35), 35u);
    st8((slot_1 + 36), 36u);
    st8((slot_1 + 37), 37u);
    st8((slot_1 + 38), 38u);
    st8((slot_1 + 39), 39u);
    st8((slot_1 + 40), 40u);
    if (r_47_3 < 41u) goto l_std_87;
    if (ld64(away(a_1, 1160ull)) == 0ull) goto l_then_je;
    goto l_else_p1;
l_std_87:;
    r_ts = (ld64(away(a_1, 1160ull)) == 0ull);
    switch (ld8((slot_1 + (i64)((u64)r_47_3)))) {
    case 0u: goto l_arm_lx;
    case 1u: goto l_arm_lx_1;
    case 2u: goto l_arm_lx_2;
    case 3u: goto l_arm_lx_3;
    case 4u: goto l_arm_lx_4;
    case 5u: goto l_arm_lx_5;
    case 6u: goto l_arm_lx_6;
    case 7u: goto l_arm_lx_7;
    case 8u: goto l_arm_lx_8;
    case 9u: goto l_arm_lx_9;
    case 10u: goto l_arm_lx_10;
    case 11u: goto l_arm_lx_11;
    case 12u: goto l_arm_lx_12;
    case 13u: goto l_arm_lx_13;
    case 14u: goto l_arm_lx_14;
    case 15u: goto l_arm_lx_15;
    case 16u: goto l_arm_lx_16;
    case 17u: goto l_arm_lx_17;
    case 18u: goto l_arm_lx_18;
    case 19u: goto l_arm_lx_19;
    case 20u: goto l_arm_lx_20;
    case 21u: goto l_arm_lx_21;
    case 22u: goto l_arm_lx_22;
    case 23u: goto l_arm_lx_23;
    case 24u: goto l_arm_lx_24;
    case 25u: goto l_arm_lx_25;
    case 26u: goto l_arm_lx_26;
    case 27u: goto l_arm_lx_27;
    case 28u: goto l_arm_lx_28;
    case 29u: goto l_arm_lx_29;
    case 30u: goto l_arm_lx_30;
    case 31u: goto l_arm_lx_31;
    case 32u: goto l_arm_lx_32;
    case 33u: goto l_arm_lx_33;
    case 34u: goto l_arm_lx_34;
    case 35u: goto l_arm_lx_35;
    case 36u: goto l_arm_lx_36;
    case 37u: goto l_arm_lx_37;
    case 38u: goto l_arm_lx_38;
    case 39u: goto l_arm_lx_39;
    case 40u: goto l_arm_lx_40;
    case 41u: goto l_arm_lx_41;
    default: goto l_noarm_e1;
    }
l_arm_lx:;
    if (!r_ts) goto l_else_5k;
    r_ym_4 = away(a_1, 1032ull);
    r_1x_4 = away(a_1, 4ull);
    r_pv_1 = ld64(r_ym_4);
    r_m0_1 = 16ull;
    r_w9_1 = ((u8 *)g_static_66);
l_arm_td_1:;
    r_62_3 = away(r_w9_1, 1ull);
    r_0f_1 = (r_m0_1 + 0xffffffffffffffffull);
    r_47_4 = ld8(r_w9_1);
    if (!(r_pv_1 > 1023ull)) { r_km_3 = r_pv_1; goto l_std_41_3; }
    u8 r_ba_4 = std_io_io_buffer_Buffer_flush(a_1);
    if (!r_ba_4) { r_m4 = 1u; goto l_std_lh; }
    u64 r_38_7 = ld64(r_ym_4);
    if (r_38_7 > 1023ull) { r_m4 = 1u; goto l_std_lh; }
    r_km_3 = r_38_7;
l_std_41_3:;
    st8((r_1x_4 + (i64)(r_km_3)), r_47_4);
    u64 r_c4_4 = (r_km_3 + 1ull);
    st64(r_ym_4, r_c4_4);
    if (r_0f_1 == 0ull) { r_m4 = 0u; goto l_std_lh; }
    r_pv_1 = r_c4_4;
    r_m0_1 = r_0f_1;
    r_w9_1 = r_62_3;
    goto l_arm_td_1;
l_else_5k:;
    u8 r_fh = core_fmt_formatter_Formatter_write_indented_bf264aed5fa78656(a_1, ((u8 *)g_static_66), 16ull);
    r_m4 = r_fh;
    goto l_std_lh;
l_arm_lx_1:;
    if (!r_ts) goto l_else_0x;
    r_ym_5 = away(a_1, 1032ull);
    r_1x_5 = away(a_1, 4ull);
    r_pv_2 = ld64(r_ym_5);
    r_m0_2 = 17ull;
    r_w9_2 = ((u8 *)g_static_67);
l_arm_td_2:;
    r_62_4 = away(r_w9_2, 1ull);
    r_0f_2 = (r_m0_2 + 0xffffffffffffffffull);
    r_47_5 = ld8(r_w9_2);
    if (!(r_pv_2 > 1023ull)) { r_km_4 = r_pv_2; goto l_std_41_4; }
    u8 r_ba_5 = std_io_io_buffer_Buffer_flush(a_1);
    if (!r_ba_5) { r_m4 = 1u; goto l_std_lh; }
    u64 r_38_8 = ld64(r_ym_5);
    if (r_38_8 > 1023ull) { r_m4 = 1u; goto l_std_lh; }
    r_km_4 = r_38_8;
l_std_41_4:;
    st8((r_1x_5 + (i64)(r_km_4)), r_47_5);
    u64 r_c4_5 = (r_km_4 + 1ull);
    st64(r_ym_5, r_c4_5);
    if (r_0f_2 == 0ull) { r_m4 = 0u; goto l_std_lh; }
    r_pv_2 = r_c4_5;
    r_m0_2 = r_0f_2;
    r_w9_2 = r_62_4;
    goto l_arm_td_2;
l_else_0x:;
    u8 r_9h = core_fmt_formatter_Formatter_write_indented_bf264aed5fa78656(a_1, ((u8 *)g_static_67), 17ull);
    r_m4 = r_9h;
    goto l_std_lh;
l_arm_lx_2:;
    if (!r_ts) goto l_else_0p;
    r_ym_6 = away(a_1, 1032ull);
    r_1x_6 = away(a_1, 4ull);
    r_pv_3 = ld64(r_ym_6);
    r_m0_3 = 18ull;
    r_w9_3 = ((u8 *)g_static_68);
l_arm_td_3:;
    r_62_5 = away(r_w9_3, 1ull);
    r_0f_3 = (r_m0_3 + 0xffffffffffffffffull);
    r_47_6 = ld8(r_w9_3);
    if (!(r_pv_3 > 1023ull)) { r_km_5 = r_pv_3; goto l_std_41_5; }
    u8 r_ba_6 = std_io_io_buffer_Buffer_flush(a_1);
    if (!r_ba_6) { r_m4 = 1u; goto l_std_lh; }
    u64 r_38_9 = ld64(r_ym_6);
    if (r_38_9 > 1023ull) { r_m4 = 1u; goto l_std_lh; }
    r_km_5 = r_38_9;
l_std_41_5:;
    st8((r_1x_6 + (i64)(r_km_5)), r_47_6);
    u64 r_c4_6 = (r_km_5 + 1ull);
    st64(r_ym_6, r_c4_6);
    if (r_0f_3 == 0ull) { r_m4 = 0u; goto l_std_lh; }
    r_pv_3 = r_c4_6;
    r_m0_3 = r_0f_3;
    r_w9_3 = r_62_5;
    goto l_arm_td_3;
l_else_0p:;
    u8 r_p8 = core_fmt_formatter_Formatter_write_indented_bf264aed5fa78656(a_1, ((u8 *)g_static_68), 18ull);
    r_m4 = r_p8;
    goto l_std_lh;
l_arm_lx_3:;
    if (!r_ts) goto l_else_8u;
    r_ym_7 = away(a_1, 1032ull);
    r_1x_7 = away(a_1, 4ull);
    r_pv_4 = ld64(r_ym_7);
    r_m0_4 = 16ull;
    r_w9_4 = ((u8 *)g_static_69);
l_arm_td_4:;
    r_62_6 = away(r_w9_4, 1ull);
    r_0f_4 = (r_m0_4 + 0xffffffffffffffffull);
    r_47_7 = ld8(r_w9_4);
    if (!(r_pv_4 > 1023ull)) { r_km_6 = r_pv_4; goto l_std_41_6; }
    u8 r_ba_7 = std_io_io_buffer_Buffer_flush(a_1);
    if (!r_ba_7) { r_m4 = 1u; goto l_std_lh; }
    u64 r_38_10 = ld64(r_ym_7);
    if (r_38_10 > 1023ull) { r_m4 = 1u; goto l_std_lh; }
    r_km_6 = r_38_10;
l_std_41_6:;
    st8((r_1x_7 + (i64)(r_km_6)), r_47_7);
    u64 r_c4_7 = (r_km_6 + 1ull);
    st64(r_ym_7, r_c4_7);
    if (r_0f_4 == 0ull) { r_m4 = 0u; goto l_std_lh; }
    r_pv_4 = r_c4_7;
    r_m0_4 = r_0f_4;
    r_w9_4 = r_62_6;
    goto l_arm_td_4;
l_else_8u:;
    u8 r_tm = core_fmt_formatter_Formatter_write_indented_bf264aed5fa78656(a_1, ((u8 *)g_static_69), 16ull);
    r_m4 = r_tm;
    goto l_std_lh;
l_arm_lx_4:;
    if (!r_ts) goto l_else_c0;
    r_ym_8 = away(a_1, 1032ull);
    r_1x_8 = away(a_1, 4ull);
    r_pv_5 = ld64(r_ym_8);
    r_m0_5 = 16ull;
    r_w9_5 = ((u8 *)g_static_70);
l_arm_td_5:;
    r_62_7 = away(r_w9_5, 1ull);
    r_0f_5 = (r_m0_5 + 0xffffffffffffffffull);
    r_47_8 = ld8(r_w9_5);
    if (!(r_pv_5 > 1023ull)) { r_km_7 = r_pv_5; goto l_std_41_7; }
    u8 r_ba_8 = std_io_io_buffer_Buffer_flush(a_1);
    if (!r_ba_8) { r_m4 = 1u; goto l_std_lh; }
    u64 r_38_11 = ld64(r_ym_8);
    if (r_38_11 > 1023ull) { r_m4 = 1u; goto l_std_lh; }
    r_km_7 = r_38_11;
l_std_41_7:;
    st8((r_1x_8 + (i64)(r_km_7)), r_47_8);
    u64 r_c4_8 = (r_km_7 + 1ull);
    st64(r_ym_8, r_c4_8);
    if (r_0f_5 == 0ull) { r_m4 = 0u; goto l_std_lh; }
    r_pv_5 = r_c4_8;
    r_m0_5 = r_0f_5;
    r_w9_5 = r_62_7;
    goto l_arm_td_5;
l_else_c0:;
    u8 r_by = core_fmt_formatter_Formatter_write_indented_bf264aed5fa78656(a_1, ((u8 *)g_static_70), 16ull);
    r_m4 = r_by;
    goto l_std_lh;
l_arm_lx_5:;
    if (!r_ts) goto l_else_u1;
    r_ym_9 = away(a_1, 1032ull);
    r_1x_9 = away(a_1, 4ull);
    r_pv_6 = ld64(r_ym_9);
    r_m0_6 = 19ull;
    r_w9_6 = ((u8 *)g_static_71);
l_arm_td_6:;
    r_62_8 = away(r_w9_6, 1ull);
    r_0f_6 = (r_m0_6 + 0xffffffffffffffffull);
    r_47_9 = ld8(r_w9_6);
    if (!(r_pv_6 > 1023ull)) { r_km_8 = r_pv_6; goto l_std_41_8; }
    u8 r_ba_9 = std_io_io_buffer_Buffer_flush(a_1);
    if (!r_ba_9) { r_m4 = 1u; goto l_std_lh; }
    u64 r_38_12 = ld64(r_ym_9);
    if (r_38_12 > 1023ull) { r_m4 = 1u; goto l_std_lh; }
    r_km_8 = r_38_12;
l_std_41_8:;
    st8((r_1x_9 + (i64)(r_km_8)), r_47_9);
    u64 r_c4_9 = (r_km_8 + 1ull);
    st64(r_ym_9, r_c4_9);
    if (r_0f_6 == 0ull) { r_m4 = 0u; goto l_std_lh; }
    r_pv_6 = r_c4_9;
    r_m0_6 = r_0f_6;
    r_w9_6 = r_62_8;
    goto l_arm_td_6;
l_else_u1:;
    u8 r_14 = core_fmt_formatter_Formatter_write_indented_bf264aed5fa78656(a_1, ((u8 *)g_static_71), 19ull);
    r_m4 = r_14;
    goto l_std_lh;
l_arm_lx_6:;
    if (!r_ts) goto l_else_v0;
    r_ym_10 = away(a_1, 1032ull);
    r_1x_10 = away(a_1, 4ull);
    r_pv_7 = ld64(r_ym_10);
    r_m0_7 = 18ull;
    r_w9_7 = ((u8 *)g_static_72);
l_arm_td_7:;
    r_62_9 = away(r_w9_7, 1ull);
    r_0f_7 = (r_m0_7 + 0xffffffffffffffffull);
    r_47_10 = ld8(r_w9_7);
    if (!(r_pv_7 > 1023ull)) { r_km_9 = r_pv_7; goto l_std_41_9; }
    u8 r_ba_10 = std_io_io_buffer_Buffer_flush(a_1);
    if (!r_ba_10) { r_m4 = 1u; goto l_std_lh; }
    u64 r_38_13 = ld64(r_ym_10);
    if (r_38_13 > 1023ull) { r_m4 = 1u; goto l_std_lh; }
    r_km_9 = r_38_13;
l_std_41_9:;
    st8((r_1x_10 + (i64)(r_km_9)), r_47_10);
    u64 r_c4_10 = (r_km_9 + 1ull);
    st64(r_ym_10, r_c4_10);
    if (r_0f_7 == 0ull) { r_m4 = 0u; goto l_std_lh; }
    r_pv_7 = r_c4_10;
    r_m0_7 = r_0f_7;
    r_w9_7 = r_62_9;
    goto l_arm_td_7;
l_else_v0:;
    u8 r_8f = core_fmt_formatter_Formatter_write_indented_bf264aed5fa78656(a_1, ((u8 *)g_static_72), 18ull);
    r_m4 = r_8f;
    goto l_std_lh;
l_arm_lx_7:;
    if (!r_ts) goto l_else_qk;
    r_ym_11 = away(a_1, 1032ull);
    r_1x_11 = away(a_1, 4ull);
    r_pv_8 = ld64(r_ym_11);
    r_m0_8 = 13ull;
    r_w9_8 = ((u8 *)g_static_73);
l_arm_td_8:;
    r_62_10 = away(r_w9_8, 1ull);
    r_0f_8 = (r_m0_8 + 0xffffffffffffffffull);
    r_47_11 = ld8(r_w9_8);
    if (!(r_pv_8 > 1023ull)) { r_km_10 = r_pv_8; goto l_std_41_10; }
    u8 r_ba_11 = std_io_io_buffer_Buffer_flush(a_1);
    if (!r_ba_11) { r_m4 = 1u; goto l_std_lh; }
    u64 r_38_14 = ld64(r_ym_11);
    if (r_38_14 > 1023ull) { r_m4 = 1u; goto l_std_lh; }
    r_km_10 = r_38_14;
l_std_41_10:;
    st8((r_1x_11 + (i64)(r_km_10)), r_47_11);
    u64 r_c4_11 = (r_km_10 + 1ull);
    st64(r_ym_11, r_c4_11);
    if (r_0f_8 == 0ull) { r_m4 = 0u; goto l_std_lh; }
    r_pv_8 = r_c4_11;
    r_m0_8 = r_0f_8;
    r_w9_8 = r_62_10;
    goto l_arm_td_8;
l_else_qk:;
    u8 r_06_1 = core_fmt_formatter_Formatter_write_indented_bf264aed5fa78656(a_1, ((u8 *)g_static_73), 13ull);
    r_m4 = r_06_1;
    goto l_std_lh;
l_arm_lx_8:;
    if (!r_ts) goto l_else_6y;
    r_ym_12 = away(a_1, 1032ull);
    r_1x_12 = away(a_1, 4ull);
    r_pv_9 = ld64(r_ym_12);
    r_m0_9 = 14ull;
    r_w9_9 = ((u8 *)g_static_74);
l_arm_td_9:;
    r_62_11 = away(r_w9_9, 1ull);
    r_0f_9 = (r_m0_9 + 0xffffffffffffffffull);
    r_47_12 = ld8(r_w9_9);
    if (!(r_pv_9 > 1023ull)) { r_km_11 = r_pv_9; goto l_std_41_11; }
    u8 r_ba_12 = std_io_io_buffer_Buffer_flush(a_1);
    if (!r_ba_12) { r_m4 = 1u; goto l_std_lh; }
    u64 r_38_15 = ld64(r_ym_12);
    if (r_38_15 > 1023ull) { r_m4 = 1u; goto l_std_lh; }
    r_km_11 = r_38_15;
l_std_41_11:;
    st8((r_1x_12 + (i64)(r_km_11)), r_47_12);
    u64 r_c4_12 = (r_km_11 + 1ull);
    st64(r_ym_12, r_c4_12);
    if (r_0f_9 == 0ull) { r_m4 = 0u; goto l_std_lh; }
    r_pv_9 = r_c4_12;
    r_m0_9 = r_0f_9;
    r_w9_9 = r_62_11;
    goto l_arm_td_9;
l_else_6y:;
    u8 r_cw = core_fmt_formatter_Formatter_write_indented_bf264aed5fa78656(a_1, ((u8 *)g_static_74), 14ull);
    r_m4 = r_cw;
    goto l_std_lh;
l_arm_lx_9:;
    if (!r_ts) goto l_else_r4;
    r_ym_13 = away(a_1, 1032ull);
    r_1x_13 = away(a_1, 4ull);
    r_pv_10 = ld64(r_ym_13);
    r_m0_10 = 21ull;
    r_w9_10 = ((u8 *)g_static_75);
l_arm_td_10:;
    r_62_12 = away(r_w9_10, 1ull);
    r_0f_10 = (r_m0_10 + 0xffffffffffffffffull);
    r_47_13 = ld8(r_w9_10);
    if (!(r_pv_10 > 1023ull)) { r_km_12 = r_pv_10; goto l_std_41_12; }
    u8 r_ba_13 = std_io_io_buffer_Buffer_flush(a_1);
    if (!r_ba_13) { r_m4 = 1u; goto l_std_lh; }
    u64 r_38_16 = ld64(r_ym_13);
    if (r_38_16 > 1023ull) { r_m4 = 1u; goto l_std_lh; }
    r_km_12 = r_38_16;
l_std_41_12:;
    st8((r_1x_13 + (i64)(r_km_12)), r_47_13);
    u64 r_c4_13 = (r_km_12 + 1ull);
    st64(r_ym_13, r_c4_13);
    if (r_0f_10 == 0ull) { r_m4 = 0u; goto l_std_lh; }
    r_pv_10 = r_c4_13;
    r_m0_10 = r_0f_10;
    r_w9_10 = r_62_12;
    goto l_arm_td_10;
l_else_r4:;
    u8 r_7b = core_fmt_formatter_Formatter_write_indented_bf264aed5fa78656(a_1, ((u8 *)g_static_75), 21ull);
    r_m4 = r_7b;
    goto l_std_lh;
l_arm_lx_10:;
    if (!r_ts) goto l_else_d6;
    r_ym_14 = away(a_1, 1032ull);
    r_1x_14 = away(a_1, 4ull);
    r_pv_11 = ld64(r_ym_14);
    r_m0_11 = 12ull;
    r_w9_11 = ((u8 *)g_static_76);
l_arm_td_11:;
    r_62_13 = away(r_w9_11, 1ull);
    r_0f_11 = (r_m0_11 + 0xffffffffffffffffull);
    r_47_14 = ld8(r_w9_11);
    if (!(r_pv_11 > 1023ull)) { r_km_13 = r_pv_11; goto l_std_41_13; }
    u8 r_ba_14 = std_io_io_buffer_Buffer_flush(a_1);
    if (!r_ba_14) { r_m4 = 1u; goto l_std_lh; }
    u64 r_38_17 = ld64(r_ym_14);
    if (r_38_17 > 1023ull) { r_m4 = 1u; goto l_std_lh; }
    r_km_13 = r_38_17;
l_std_41_13:;
    st8((r_1x_14 + (i64)(r_km_13)), r_47_14);
    u64 r_c4_14 = (r_km_13 + 1ull);
    st64(r_ym_14, r_c4_14);
    if (r_0f_11 == 0ull) { r_m4 = 0u; goto l_std_lh; }
    r_pv_11 = r_c4_14;
    r_m0_11 = r_0f_11;
    r_w9_11 = r_62_13;
    goto l_arm_td_11;
l_else_d6:;
    u8 r_gz = core_fmt_formatter_Formatter_write_indented_bf264aed5fa78656(a_1, ((u8 *)g_static_76), 12ull);
    r_m4 = r_gz;
    goto l_std_lh;
l_arm_lx_11:;
    if (!r_ts) goto l_else_9l;
    r_ym_15 = away(a_1, 1032ull);
    r_1x_15 = away(a_1, 4ull);
    r_pv_12 = ld64(r_ym_15);
    r_m0_12 = 11ull;
    r_w9_12 = ((u8 *)g_static_77);
l_arm_td_12:;
    r_62_14 = away(r_w9_12, 1ull);
    r_0f_12 = (r_m0_12 + 0xffffffffffffffffull);
    r_47_15 = ld8(r_w9_12);
    if (!(r_pv_12 > 1023ull)) { r_km_14 = r_pv_12; goto l_std_41_14; }
    u8 r_ba_15 = std_io_io_buffer_Buffer_flush(a_1);
    if (!r_ba_15) { r_m4 = 1u; goto l_std_lh; }
    u64 r_38_18 = ld64(r_ym_15);
    if (r_38_18 > 1023ull) { r_m4 = 1u; goto l_std_lh; }
    r_km_14 = r_38_18;
l_std_41_14:;
    st8((r_1x_15 + (i64)(r_km_14)), r_47_15);
    u64 r_c4_15 = (r_km_14 + 1ull);
    st64(r_ym_15, r_c4_15);
    if (r_0f_12 == 0ull) { r_m4 = 0u; goto l_std_lh; }
    r_pv_12 = r_c4_15;
    r_m0_12 = r_0f_12;
    r_w9_12 = r_62_14;
    goto l_arm_td_12;
l_else_9l:;
    u8 r_v0 = core_fmt_formatter_Formatter_write_indented_bf264aed5fa78656(a_1, ((u8 *)g_static_77), 11ull);
    r_m4 = r_v0;
    goto l_std_lh;
l_arm_lx_12:;
    if (!r_ts) goto l_else_tk;
    r_ym_16 = away(a_1, 1032ull);
    r_1x_16 = away(a_1, 4ull);
    r_pv_13 = ld64(r_ym_16);
    r_m0_13 = 21ull;
    r_w9_13 = ((u8 *)g_static_78);
l_arm_td_13:;
    r_62_15 = away(r_w9_13, 1ull);
    r_0f_13 = (r_m0_13 + 0xffffffffffffffffull);
    r_47_16 = ld8(r_w9_13);
    if (!(r_pv_13 > 1023ull)) { r_km_15 = r_pv_13; goto l_std_41_15; }
    u8 r_ba_16 = std_io_io_buffer_Buffer_flush(a_1);
    if (!r_ba_16) { r_m4 = 1u; goto l_std_lh; }
    u64 r_38_19 = ld64(r_ym_16);
    if (r_38_19 > 1023ull) { r_m4 = 1u; goto l_std_lh; }
    r_km_15 = r_38_19;
l_std_41_15:;
    st8((r_1x_16 + (i64)(r_km_15)), r_47_16);
    u64 r_c4_16 = (r_km_15 + 1ull);
    st64(r_ym_16, r_c4_16);
    if (r_0f_13 == 0ull) { r_m4 = 0u; goto l_std_lh; }
    r_pv_13 = r_c4_16;
    r_m0_13 = r_0f_13;
    r_w9_13 = r_62_15;
    goto l_arm_td_13;
l_else_tk:;
    u8 r_uc = core_fmt_formatter_Formatter_write_indented_bf264aed5fa78656(a_1, ((u8 *)g_static_78), 21ull);
    r_m4 = r_uc;
    goto l_std_lh;
l_arm_lx_13:;
    if (!r_ts) goto l_else_oq;
    r_ym_17 = away(a_1, 1032ull);
    r_1x_17 = away(a_1, 4ull);
    r_pv_14 = ld64(r_ym_17);
    r_m0_14 = 21ull;
    r_w9_14 = ((u8 *)g_static_79);
l_arm_td_14:;
    r_62_16 = away(r_w9_14, 1ull);
    r_0f_14 = (r_m0_14 + 0xffffffffffffffffull);
    r_47_17 = ld8(r_w9_14);
    if (!(r_pv_14 > 1023ull)) { r_km_16 = r_pv_14; goto l_std_41_16; }
    u8 r_ba_17 = std_io_io_buffer_Buffer_flush(a_1);
    if (!r_ba_17) { r_m4 = 1u; goto l_std_lh; }
    u64 r_38_20 = ld64(r_ym_17);
    if (r_38_20 > 1023ull) { r_m4 = 1u; goto l_std_lh; }
    r_km_16 = r_38_20;
l_std_41_16:;
    st8((r_1x_17 + (i64)(r_km_16)), r_47_17);
    u64 r_c4_17 = (r_km_16 + 1ull);
    st64(r_ym_17, r_c4_17);
    if (r_0f_14 == 0ull) { r_m4 = 0u; goto l_std_lh; }
    r_pv_14 = r_c4_17;
    r_m0_14 = r_0f_14;
    r_w9_14 = r_62_16;
    goto l_arm_td_14;
l_else_oq:;
    u8 r_cu = core_fmt_formatter_Formatter_write_indented_bf264aed5fa78656(a_1, ((u8 *)g_static_79), 21ull);
    r_m4 = r_cu;
    goto l_std_lh;
l_arm_lx_14:;
    if (!r_ts) goto l_else_p2;
    r_ym_18 = away(a_1, 1032ull);
    r_1x_18 = away(a_1, 4ull);
    r_pv_15 = ld64(r_ym_18);
    r_m0_15 = 15ull;
    r_w9_15 = ((u8 *)g_static_80);
l_arm_td_15:;
    r_62_17 = away(r_w9_15, 1ull);
    r_0f_15 = (r_m0_15 + 0xffffffffffffffffull);
    r_47_18 = ld8(r_w9_15);
    if (!(r_pv_15 > 1023ull)) { r_km_17 = r_pv_15; goto l_std_41_17; }
    u8 r_ba_18 = std_io_io_buffer_Buffer_flush(a_1);
    if (!r_ba_18) { r_m4 = 1u; goto l_std_lh; }
    u64 r_38_21 = ld64(r_ym_18);
    if (r_38_21 > 1023ull) { r_m4 = 1u; goto l_std_lh; }
    r_km_17 = r_38_21;
l_std_41_17:;
    st8((r_1x_18 + (i64)(r_km_17)), r_47_18);
    u64 r_c4_18 = (r_km_17 + 1ull);
    st64(r_ym_18, r_c4_18);
    if (r_0f_15 == 0ull) { r_m4 = 0u; goto l_std_lh; }
    r_pv_15 = r_c4_18;
    r_m0_15 = r_0f_15;
    r_w9_15 = r_62_17;
    goto l_arm_td_15;
l_else_p2:;
    u8 r_92 = core_fmt_formatter_Formatter_write_indented_bf264aed5fa78656(a_1, ((u8 *)g_static_80), 15ull);
    r_m4 = r_92;
    goto l_std_lh;
l_arm_lx_15:;
    if (!r_ts) goto l_else_x0;
    r_ym_19 = away(a_1, 1032ull);
    r_1x_19 = away(a_1, 4ull);
    r_pv_16 = ld64(r_ym_19);
    r_m0_16 = 14ull;
    r_w9_16 = ((u8 *)g_static_81);
l_arm_td_16:;
    r_62_18 = away(r_w9_16, 1ull);
    r_0f_16 = (r_m0_16 + 0xffffffffffffffffull);
    r_47_19 = ld8(r_w9_16);
    if (!(r_pv_16 > 1023ull)) { r_km_18 = r_pv_16; goto l_std_41_18; }
    u8 r_ba_19 = std_io_io_buffer_Buffer_flush(a_1);
    if (!r_ba_19) { r_m4 = 1u; goto l_std_lh; }
    u64 r_38_22 = ld64(r_ym_19);
    if (r_38_22 > 1023ull) { r_m4 = 1u; goto l_std_lh; }
    r_km_18 = r_38_22;
l_std_41_18:;
    st8((r_1x_19 + (i64)(r_km_18)), r_47_19);
    u64 r_c4_19 = (r_km_18 + 1ull);
    st64(r_ym_19, r_c4_19);
    if (r_0f_16 == 0ull) { r_m4 = 0u; goto l_std_lh; }
    r_pv_16 = r_c4_19;
    r_m0_16 = r_0f_16;
    r_w9_16 = r_62_18;
    goto l_arm_td_16;
l_else_x0:;
    u8 r_w0 = core_fmt_formatter_Formatter_write_indented_bf264aed5fa78656(a_1, ((u8 *)g_static_81), 14ull);
    r_m4 = r_w0;
    goto l_std_lh;
l_arm_lx_16:;
    if (!r_ts) goto l_else_98;
    r_ym_20 = away(a_1, 1032ull);
    r_1x_20 = away(a_1, 4ull);
    r_pv_17 = ld64(r_ym_20);
    r_m0_17 = 19ull;
    r_w9_17 = ((u8 *)g_static_82);
l_arm_td_17:;
    r_62_19 = away(r_w9_17, 1ull);
    r_0f_17 = (r_m0_17 + 0xffffffffffffffffull);
    r_47_20 = ld8(r_w9_17);
    if (!(r_pv_17 > 1023ull)) { r_km_19 = r_pv_17; goto l_std_41_19; }
    u8 r_ba_20 = std_io_io_buffer_Buffer_flush(a_1);
    if (!r_ba_20) { r_m4 = 1u; goto l_std_lh; }
    u64 r_38_23 = ld64(r_ym_20);
    if (r_38_23 > 1023ull) { r_m4 = 1u; goto l_std_lh; }
    r_km_19 = r_38_23;
l_std_41_19:;
    st8((r_1x_20 + (i64)(r_km_19)), r_47_20);
    u64 r_c4_20 = (r_km_19 + 1ull);
    st64(r_ym_20, r_c4_20);
    if (r_0f_17 == 0ull) { r_m4 = 0u; goto l_std_lh; }
    r_pv_17 = r_c4_20;
    r_m0_17 = r_0f_17;
    r_w9_17 = r_62_19;
    goto l_arm_td_17;
l_else_98:;
    u8 r_rz = core_fmt_formatter_Formatter_write_indented_bf264aed5fa78656(a_1, ((u8 *)g_static_82), 19ull);
    r_m4 = r_rz;
    goto l_std_lh;
l_arm_lx_17:;
    if (!r_ts) goto l_else_91;
    r_ym_21 = away(a_1, 1032ull);
    r_1x_21 = away(a_1, 4ull);
    r_pv_18 = ld64(r_ym_21);
    r_m0_18 = 38ull;
    r_w9_18 = ((u8 *)g_static_83);
l_arm_td_18:;
    r_62_20 = away(r_w9_18, 1ull);
    r_0f_18 = (r_m0_18 + 0xffffffffffffffffull);
    r_47_21 = ld8(r_w9_18);
    if (!(r_pv_18 > 1023ull)) { r_km_20 = r_pv_18; goto l_std_41_20; }
    u8 r_ba_21 = std_io_io_buffer_Buffer_flush(a_1);
    if (!r_ba_21) { r_m4 = 1u; goto l_std_lh; }
    u64 r_38_24 = ld64(r_ym_21);
    if (r_38_24 > 1023ull) { r_m4 = 1u; goto l_std_lh; }
    r_km_20 = r_38_24;
l_std_41_20:;
    st8((r_1x_21 + (i64)(r_km_20)), r_47_21);
    u64 r_c4_21 = (r_km_20 + 1ull);
    st64(r_ym_21, r_c4_21);
    if (r_0f_18 == 0ull) { r_m4 = 0u; goto l_std_lh; }
    r_pv_18 = r_c4_21;
    r_m0_18 = r_0f_18;
    r_w9_18 = r_62_20;
    goto l_arm_td_18;
l_else_91:;
    u8 r_5i = core_fmt_formatter_Formatter_write_indented_bf264aed5fa78656(a_1, ((u8 *)g_static_83), 38ull);
    r_m4 = r_5i;
    goto l_std_lh;
l_arm_lx_18:;
    if (!r_ts) goto l_else_5f;
    r_ym_22 = away(a_1, 1032ull);
    r_1x_22 = away(a_1, 4ull);
    r_pv_19 = ld64(r_ym_22);
    r_m0_19 = 56ull;
    r_w9_19 = ((u8 *)g_static_84);
l_arm_td_19:;
    r_62_21 = away(r_w9_19, 1ull);
    r_0f_19 = (r_m0_19 + 0xffffffffffffffffull);
    r_47_22 = ld8(r_w9_19);
    if (!(r_pv_19 > 1023ull)) { r_km_21 = r_pv_19; goto l_std_41_21; }
    u8 r_ba_22 = std_io_io_buffer_Buffer_flush(a_1);
    if (!r_ba_22) { r_m4 = 1u; goto l_std_lh; }
    u64 r_38_25 = ld64(r_ym_22);
    if (r_38_25 > 1023ull) { r_m4 = 1u; goto l_std_lh; }
    r_km_21 = r_38_25;
l_std_41_21:;
    st8((r_1x_22 + (i64)(r_km_21)), r_47_22);
    u64 r_c4_22 = (r_km_21 + 1ull);
    st64(r_ym_22, r_c4_22);
    if (r_0f_19 == 0ull) { r_m4 = 0u; goto l_std_lh; }
    r_pv_19 = r_c4_22;
    r_m0_19 = r_0f_19;
    r_w9_19 = r_62_21;
    goto l_arm_td_19;
l_else_5f:;
    u8 r_kl = core_fmt_formatter_Formatter_write_indented_bf264aed5fa78656(a_1, ((u8 *)g_static_84), 56ull);
    r_m4 = r_kl;
    goto l_std_lh;
l_arm_lx_19:;
    if (!r_ts) goto l_else_qx;
    r_ym_23 = away(a_1, 1032ull);
    r_1x_23 = away(a_1, 4ull);
    r_pv_20 = ld64(r_ym_23);
    r_m0_20 = 25ull;
    r_w9_20 = ((u8 *)g_static_85);
l_arm_td_20:;
    r_62_22 = away(r_w9_20, 1ull);
    r_0f_20 = (r_m0_20 + 0xffffffffffffffffull);
    r_47_23 = ld8(r_w9_20);
    if (!(r_pv_20 > 1023ull)) { r_km_22 = r_pv_20; goto l_std_41_22; }
    u8 r_ba_23 = std_io_io_buffer_Buffer_flush(a_1);
    if (!r_ba_23) { r_m4 = 1u; goto l_std_lh; }
    u64 r_38_26 = ld64(r_ym_23);
    if (r_38_26 > 1023ull) { r_m4 = 1u; goto l_std_lh; }
    r_km_22 = r_38_26;
l_std_41_22:;
    st8((r_1x_23 + (i64)(r_km_22)), r_47_23);
    u64 r_c4_23 = (r_km_22 + 1ull);
    st64(r_ym_23, r_c4_23);
    if (r_0f_20 == 0ull) { r_m4 = 0u; goto l_std_lh; }
    r_pv_20 = r_c4_23;
    r_m0_20 = r_0f_20;
    r_w9_20 = r_62_22;
    goto l_arm_td_20;
l_else_qx:;
    u8 r_3c = core_fmt_formatter_Formatter_write_indented_bf264aed5fa78656(a_1, ((u8 *)g_static_85), 25ull);
    r_m4 = r_3c;
    goto l_std_lh;
l_arm_lx_20:;
    if (!r_ts) goto l_else_5h;
    r_ym_24 = away(a_1, 1032ull);
    r_1x_24 = away(a_1, 4ull);
    r_pv_21 = ld64(r_ym_24);
    r_m0_21 = 23ull;
    r_w9_21 = ((u8 *)g_static_86);
l_arm_td_21:;
    r_62_23 = away(r_w9_21, 1ull);
    r_0f_21 = (r_m0_21 + 0xffffffffffffffffull);
    r_47_24 = ld8(r_w9_21);
    if (!(r_pv_21 > 1023ull)) { r_km_23 = r_pv_21; goto l_std_41_23; }
    u8 r_ba_24 = std_io_io_buffer_Buffer_flush(a_1);
    if (!r_ba_24) { r_m4 = 1u; goto l_std_lh; }
    u64 r_38_27 = ld64(r_ym_24);
    if (r_38_27 > 1023ull) { r_m4 = 1u; goto l_std_lh; }
    r_km_23 = r_38_27;
l_std_41_23:;
    st8((r_1x_24 + (i64)(r_km_23)), r_47_24);
    u64 r_c4_24 = (r_km_23 + 1ull);
    st64(r_ym_24, r_c4_24);
    if (r_0f_21 == 0ull) { r_m4 = 0u; goto l_std_lh; }
    r_pv_21 = r_c4_24;
    r_m0_21 = r_0f_21;
    r_w9_21 = r_62_23;
    goto l_arm_td_21;
l_else_5h:;
    u8 r_1f = core_fmt_formatter_Formatter_write_indented_bf264aed5fa78656(a_1, ((u8 *)g_static_86), 23ull);
    r_m4 = r_1f;
    goto l_std_lh;
l_arm_lx_21:;
    if (!r_ts) goto l_else_7g;
    r_ym_25 = away(a_1, 1032ull);
    r_1x_25 = away(a_1, 4ull);
    r_pv_22 = ld64(r_ym_25);
    r_m0_22 = 12ull;
    r_w9_22 = ((u8 *)g_static_87);
l_arm_td_22:;
    r_62_24 = away(r_w9_22, 1ull);
    r_0f_22 = (r_m0_22 + 0xffffffffffffffffull);
    r_47_25 = ld8(r_w9_22);
    if (!(r_pv_22 > 1023ull)) { r_km_24 = r_pv_22; goto l_std_41_24; }
    u8 r_ba_25 = std_io_io_buffer_Buffer_flush(a_1);
    if (!r_ba_25) { r_m4 = 1u; goto l_std_lh; }
    u64 r_38_28 = ld64(r_ym_25);
    if (r_38_28 > 1023ull) { r_m4 = 1u; goto l_std_lh; }
    r_km_24 = r_38_28;
l_std_41_24:;
    st8((r_1x_25 + (i64)(r_km_24)), r_47_25);
    u64 r_c4_25 = (r_km_24 + 1ull);
    st64(r_ym_25, r_c4_25);
    if (r_0f_22 == 0ull) { r_m4 = 0u; goto l_std_lh; }
    r_pv_22 = r_c4_25;
    r_m0_22 = r_0f_22;
    r_w9_22 = r_62_24;
    goto l_arm_td_22;
l_else_7g:;
    u8 r_qa = core_fmt_formatter_Formatter_write_indented_bf264aed5fa78656(a_1, ((u8 *)g_static_87), 12ull);
    r_m4 = r_qa;
    goto l_std_lh;
l_arm_lx_22:;
    if (!r_ts) goto l_else_r7;
    r_ym_26 = away(a_1, 1032ull);
    r_1x_26 = away(a_1, 4ull);
    r_pv_23 = ld64(r_ym_26);
    r_m0_23 = 9ull;
    r_w9_23 = ((u8 *)g_static_88);
l_arm_td_23:;
    r_62_25 = away(r_w9_23, 1ull);
    r_0f_23 = (r_m0_23 + 0xffffffffffffffffull);
    r_47_26 = ld8(r_w9_23);
    if (!(r_pv_23 > 1023ull)) { r_km_25 = r_pv_23; goto l_std_41_25; }
    u8 r_ba_26 = std_io_io_buffer_Buffer_flush(a_1);
    if (!r_ba_26) { r_m4 = 1u; goto l_std_lh; }
    u64 r_38_29 = ld64(r_ym_26);
    if (r_38_29 > 1023ull) { r_m4 = 1u; goto l_std_lh; }
    r_km_25 = r_38_29;
l_std_41_25:;
    st8((r_1x_26 + (i64)(r_km_25)), r_47_26);
    u64 r_c4_26 = (r_km_25 + 1ull);
    st64(r_ym_26, r_c4_26);
    if (r_0f_23 == 0ull) { r_m4 = 0u; goto l_std_lh; }
    r_pv_23 = r_c4_26;
    r_m0_23 = r_0f_23;
    r_w9_23 = r_62_25;
    goto l_arm_td_23;
l_else_r7:;
    u8 r_mo = core_fmt_formatter_Formatter_write_indented_bf264aed5fa78656(a_1, ((u8 *)g_static_88), 9ull);
    r_m4 = r_mo;
    goto l_std_lh;
l_arm_lx_23:;
    if (!r_ts) goto l_else_4j;
    r_ym_27 = away(a_1, 1032ull);
    r_1x_27 = away(a_1, 4ull);
    r_pv_24 = ld64(r_ym_27);
    r_m0_24 = 10ull;
    r_w9_24 = ((u8 *)g_static_89);
l_arm_td_24:;
    r_62_26 = away(r_w9_24, 1ull);
    r_0f_24 = (r_m0_24 + 0xffffffffffffffffull);
    r_47_27 = ld8(r_w9_24);
    if (!(r_pv_24 > 1023ull)) { r_km_26 = r_pv_24; goto l_std_41_26; }
    u8 r_ba_27 = std_io_io_buffer_Buffer_flush(a_1);
    if (!r_ba_27) { r_m4 = 1u; goto l_std_lh; }
    u64 r_38_30 = ld64(r_ym_27);
    if (r_38_30 > 1023ull) { r_m4 = 1u; goto l_std_lh; }
    r_km_26 = r_38_30;
l_std_41_26:;
    st8((r_1x_27 + (i64)(r_km_26)), r_47_27);
    u64 r_c4_27 = (r_km_26 + 1ull);
    st64(r_ym_27, r_c4_27);
    if (r_0f_24 == 0ull) { r_m4 = 0u; goto l_std_lh; }
    r_pv_24 = r_c4_27;
    r_m0_24 = r_0f_24;
    r_w9_24 = r_62_26;
    goto l_arm_td_24;
l_else_4j:;
    u8 r_3i = core_fmt_formatter_Formatter_write_indented_bf264aed5fa78656(a_1, ((u8 *)g_static_89), 10ull);
    r_m4 = r_3i;
    goto l_std_lh;
l_arm_lx_24:;
    if (!r_ts) goto l_else_5a;
    r_ym_28 = away(a_1, 1032ull);
    r_1x_28 = away(a_1, 4ull);
    r_pv_25 = ld64(r_ym_28);
    r_m0_25 = 16ull;
    r_w9_25 = ((u8 *)g_static_90);
l_arm_td_25:;
    r_62_27 = away(r_w9_25, 1ull);
    r_0f_25 = (r_m0_25 + 0xffffffffffffffffull);
    r_47_28 = ld8(r_w9_25);
    if (!(r_pv_25 > 1023ull)) { r_km_27 = r_pv_25; goto l_std_41_27; }
    u8 r_ba_28 = std_io_io_buffer_Buffer_flush(a_1);
    if (!r_ba_28) { r_m4 = 1u; goto l_std_lh; }
    u64 r_38_31 = ld64(r_ym_28);
    if (r_38_31 > 1023ull) { r_m4 = 1u; goto l_std_lh; }
    r_km_27 = r_38_31;
l_std_41_27:;
    st8((r_1x_28 + (i64)(r_km_27)), r_47_28);
    u64 r_c4_28 = (r_km_27 + 1ull);
    st64(r_ym_28, r_c4_28);
    if (r_0f_25 == 0ull) { r_m4 = 0u; goto l_std_lh; }
    r_pv_25 = r_c4_28;
    r_m0_25 = r_0f_25;
    r_w9_25 = r_62_27;
    goto l_arm_td_25;
l_else_5a:;
    u8 r_vc = core_fmt_formatter_Formatter_write_indented_bf264aed5fa78656(a_1, ((u8 *)g_static_90), 16ull);
    r_m4 = r_vc;
    goto l_std_lh;
l_arm_lx_25:;
    if (!r_ts) goto l_else_rd;
    r_ym_29 = away(a_1, 1032ull);
    r_1x_29 = away(a_1, 4ull);
    r_pv_26 = ld64(r_ym_29);
    r_m0_26 = 23ull;
    r_w9_26 = ((u8 *)g_static_91);
l_arm_td_26:;
    r_62_28 = away(r_w9_26, 1ull);
    r_0f_26 = (r_m0_26 + 0xffffffffffffffffull);
    r_47_29 = ld8(r_w9_26);
    if (!(r_pv_26 > 1023ull)) { r_km_28 = r_pv_26; goto l_std_41_28; }
    u8 r_ba_29 = std_io_io_buffer_Buffer_flush(a_1);
    if (!r_ba_29) { r_m4 = 1u; goto l_std_lh; }
    u64 r_38_32 = ld64(r_ym_29);
    if (r_38_32 > 1023ull) { r_m4 = 1u; goto l_std_lh; }
    r_km_28 = r_38_32;
l_std_41_28:;
    st8((r_1x_29 + (i64)(r_km_28)), r_47_29);
    u64 r_c4_29 = (r_km_28 + 1ull);
    st64(r_ym_29, r_c4_29);
    if (r_0f_26 == 0ull) { r_m4 = 0u; goto l_std_lh; }
    r_pv_26 = r_c4_29;
    r_m0_26 = r_0f_26;
    r_w9_26 = r_62_28;
    goto l_arm_td_26;
l_else_rd:;
    u8 r_2u = core_fmt_formatter_Formatter_write_indented_bf264aed5fa78656(a_1, ((u8 *)g_static_91), 23ull);
    r_m4 = r_2u;
    goto l_std_lh;
l_arm_lx_26:;
    if (!r_ts) goto l_else_3o;
    r_ym_30 = away(a_1, 1032ull);
    r_1x_30 = away(a_1, 4ull);
    r_pv_27 = ld64(r_ym_30);
    r_m0_27 = 14ull;
    r_w9_27 = ((u8 *)g_static_92);
l_arm_td_27:;
    r_62_29 = away(r_w9_27, 1ull);
    r_0f_27 = (r_m0_27 + 0xffffffffffffffffull);
    r_47_30 = ld8(r_w9_27);
    if (!(r_pv_27 > 1023ull)) { r_km_29 = r_pv_27; goto l_std_41_29; }
    u8 r_ba_30 = std_io_io_buffer_Buffer_flush(a_1);
    if (!r_ba_30) { r_m4 = 1u; goto l_std_lh; }
    u64 r_38_33 = ld64(r_ym_30);
    if (r_38_33 > 1023ull) { r_m4 = 1u; goto l_std_lh; }
    r_km_29 = r_38_33;
l_std_41_29:;
    st8((r_1x_30 + (i64)(r_km_29)), r_47_30);
    u64 r_c4_30 = (r_km_29 + 1ull);
    st64(r_ym_30, r_c4_30);
    if (r_0f_27 == 0ull) { r_m4 = 0u; goto l_std_lh; }
    r_pv_27 = r_c4_30;
    r_m0_27 = r_0f_27;
    r_w9_27 = r_62_29;
    goto l_arm_td_27;
l_else_3o:;
    u8 r_g4 = core_fmt_formatter_Formatter_write_indented_bf264aed5fa78656(a_1, ((u8 *)g_static_92), 14ull);
    r_m4 = r_g4;
    goto l_std_lh;
l_arm_lx_27:;
    if (!r_ts) goto l_else_ig;
    r_ym_31 = away(a_1, 1032ull);
    r_1x_31 = away(a_1, 4ull);
    r_pv_28 = ld64(r_ym_31);
    r_m0_28 = 14ull;
    r_w9_28 = ((u8 *)g_static_93);
l_arm_td_28:;
    r_62_30 = away(r_w9_28, 1ull);
    r_0f_28 = (r_m0_28 + 0xffffffffffffffffull);
    r_47_31 = ld8(r_w9_28);
    if (!(r_pv_28 > 1023ull)) { r_km_30 = r_pv_28; goto l_std_41_30; }
    u8 r_ba_31 = std_io_io_buffer_Buffer_flush(a_1);
    if (!r_ba_31) { r_m4 = 1u; goto l_std_lh; }
    u64 r_38_34 = ld64(r_ym_31);
    if (r_38_34 > 1023ull) { r_m4 = 1u; goto l_std_lh; }
    r_km_30 = r_38_34;
l_std_41_30:;
    st8((r_1x_31 + (i64)(r_km_30)), r_47_31);
    u64 r_c4_31 = (r_km_30 + 1ull);
    st64(r_ym_31, r_c4_31);
    if (r_0f_28 == 0ull) { r_m4 = 0u; goto l_std_lh; }
    r_pv_28 = r_c4_31;
    r_m0_28 = r_0f_28;
    r_w9_28 = r_62_30;
    goto l_arm_td_28;
l_else_ig:;
    u8 r_r2 = core_fmt_formatter_Formatter_write_indented_bf264aed5fa78656(a_1, ((u8 *)g_static_93), 14ull);
    r_m4 = r_r2;
    goto l_std_lh;
l_arm_lx_28:;
    if (!r_ts) goto l_else_mt;
    r_ym_32 = away(a_1, 1032ull);
    r_1x_32 = away(a_1, 4ull);
    r_pv_29 = ld64(r_ym_32);
    r_m0_29 = 13ull;
    r_w9_29 = ((u8 *)g_static_94);
l_arm_td_29:;
    r_62_31 = away(r_w9_29, 1ull);
    r_0f_29 = (r_m0_29 + 0xffffffffffffffffull);
    r_47_32 = ld8(r_w9_29);
    if (!(r_pv_29 > 1023ull)) { r_km_31 = r_pv_29; goto l_std_41_31; }
    u8 r_ba_32 = std_io_io_buffer_Buffer_flush(a_1);
    if (!r_ba_32) { r_m4 = 1u; goto l_std_lh; }
    u64 r_38_35 = ld64(r_ym_32);
    if (r_38_35 > 1023ull) { r_m4 = 1u; goto l_std_lh; }
    r_km_31 = r_38_35;
l_std_41_31:;
    st8((r_1x_32 + (i64)(r_km_31)), r_47_32);
    u64 r_c4_32 = (r_km_31 + 1ull);
    st64(r_ym_32, r_c4_32);
    if (r_0f_29 == 0ull) { r_m4 = 0u; goto l_std_lh; }
    r_pv_29 = r_c4_32;
    r_m0_29 = r_0f_29;
    r_w9_29 = r_62_31;
    goto l_arm_td_29;
l_else_mt:;
    u8 r_77 = core_fmt_formatter_Formatter_write_indented_bf264aed5fa78656(a_1, ((u8 *)g_static_94), 13ull);
    r_m4 = r_77;
    goto l_std_lh;
l_arm_lx_29:;
    if (!r_ts) goto l_else_2v;
    r_ym_33 = away(a_1, 1032ull);
    r_1x_33 = away(a_1, 4ull);
    r_pv_30 = ld64(r_ym_33);
    r_m0_30 = 20ull;
    r_w9_30 = ((u8 *)g_static_95);
l_arm_td_30:;
    r_62_32 = away(r_w9_30, 1ull);
    r_0f_30 = (r_m0_30 + 0xffffffffffffffffull);
    r_47_33 = ld8(r_w9_30);
    if (!(r_pv_30 > 1023ull)) { r_km_32 = r_pv_30; goto l_std_41_32; }
    u8 r_ba_33 = std_io_io_buffer_Buffer_flush(a_1);
    if (!r_ba_33) { r_m4 = 1u; goto l_std_lh; }
    u64 r_38_36 = ld64(r_ym_33);
    if (r_38_36 > 1023ull) { r_m4 = 1u; goto l_std_lh; }
    r_km_32 = r_38_36;
l_std_41_32:;
    st8((r_1x_33 + (i64)(r_km_32)), r_47_33);
    u64 r_c4_33 = (r_km_32 + 1ull);
    st64(r_ym_33, r_c4_33);
    if (r_0f_30 == 0ull) { r_m4 = 0u; goto l_std_lh; }
    r_pv_30 = r_c4_33;
    r_m0_30 = r_0f_30;
    r_w9_30 = r_62_32;
    goto l_arm_td_30;
l_else_2v:;
    u8 r_w4 = core_fmt_formatter_Formatter_write_indented_bf264aed5fa78656(a_1, ((u8 *)g_static_95), 20ull);
    r_m4 = r_w4;
    goto l_std_lh;
l_arm_lx_30:;
    if (!r_ts) goto l_else_if;
    r_ym_34 = away(a_1, 1032ull);
    r_1x_34 = away(a_1, 4ull);
    r_pv_31 = ld64(r_ym_34);
    r_m0_31 = 8ull;
    r_w9_31 = ((u8 *)g_static_96);
l_arm_td_31:;
    r_62_33 = away(r_w9_31, 1ull);
    r_0f_31 = (r_m0_31 + 0xffffffffffffffffull);
    r_47_34 = ld8(r_w9_31);
    if (!(r_pv_31 > 1023ull)) { r_km_33 = r_pv_31; goto l_std_41_33; }
    u8 r_ba_34 = std_io_io_buffer_Buffer_flush(a_1);
    if (!r_ba_34) { r_m4 = 1u; goto l_std_lh; }
    u64 r_38_37 = ld64(r_ym_34);
    if (r_38_37 > 1023ull) { r_m4 = 1u; goto l_std_lh; }
    r_km_33 = r_38_37;
l_std_41_33:;
    st8((r_1x_34 + (i64)(r_km_33)), r_47_34);
    u64 r_c4_34 = (r_km_33 + 1ull);
    st64(r_ym_34, r_c4_34);
    if (r_0f_31 == 0ull) { r_m4 = 0u; goto l_std_lh; }
    r_pv_31 = r_c4_34;
    r_m0_31 = r_0f_31;
    r_w9_31 = r_62_33;
    goto l_arm_td_31;
l_else_if:;
    u8 r_88 = core_fmt_formatter_Formatter_write_indented_bf264aed5fa78656(a_1, ((u8 *)g_static_96), 8ull);
    r_m4 = r_88;
    goto l_std_lh;
l_arm_lx_31:;
    if (!r_ts) goto l_else_n8;
    r_ym_35 = away(a_1, 1032ull);
    r_1x_35 = away(a_1, 4ull);
    r_pv_32 = ld64(r_ym_35);
    r_m0_32 = 27ull;
    r_w9_32 = ((u8 *)g_static_97);
l_arm_td_32:;
    r_62_34 = away(r_w9_32, 1ull);
    r_0f_32 = (r_m0_32 + 0xffffffffffffffffull);
    r_47_35 = ld8(r_w9_32);
    if (!(r_pv_32 > 1023ull)) { r_km_34 = r_pv_32; goto l_std_41_34; }
    u8 r_ba_35 = std_io_io_buffer_Buffer_flush(a_1);
    if (!r_ba_35) { r_m4 = 1u; goto l_std_lh; }
    u64 r_38_38 = ld64(r_ym_35);
    if (r_38_38 > 1023ull) { r_m4 = 1u; goto l_std_lh; }
    r_km_34 = r_38_38;
l_std_41_34:;
    st8((r_1x_35 + (i64)(r_km_34)), r_47_35);
    u64 r_c4_35 = (r_km_34 + 1ull);
    st64(r_ym_35, r_c4_35);
    if (r_0f_32 == 0ull) { r_m4 = 0u; goto l_std_lh; }
    r_pv_32 = r_c4_35;
    r_m0_32 = r_0f_32;
    r_w9_32 = r_62_34;
    goto l_arm_td_32;
l_else_n8:;
    u8 r_xi = core_fmt_formatter_Formatter_write_indented_bf264aed5fa78656(a_1, ((u8 *)g_static_97), 27ull);
    r_m4 = r_xi;
    goto l_std_lh;
l_arm_lx_32:;
    if (!r_ts) goto l_else_xb;
    r_ym_36 = away(a_1, 1032ull);
    r_1x_36 = away(a_1, 4ull);
    r_pv_33 = ld64(r_ym_36);
    r_m0_33 = 14ull;
    r_w9_33 = ((u8 *)g_static_98);
l_arm_td_33:;
    r_62_35 = away(r_w9_33, 1ull);
    r_0f_33 = (r_m0_33 + 0xffffffffffffffffull);
    r_47_36 = ld8(r_w9_33);
    if (!(r_pv_33 > 1023ull)) { r_km_35 = r_pv_33; goto l_std_41_35; }
    u8 r_ba_36 = std_io_io_buffer_Buffer_flush(a_1);
    if (!r_ba_36) { r_m4 = 1u; goto l_std_lh; }
    u64 r_38_39 = ld64(r_ym_36);
    if (r_38_39 > 1023ull) { r_m4 = 1u; goto l_std_lh; }
    r_km_35 = r_38_39;
l_std_41_35:;
    st8((r_1x_36 + (i64)(r_km_35)), r_47_36);
    u64 r_c4_36 = (r_km_35 + 1ull);
    st64(r_ym_36, r_c4_36);
    if (r_0f_33 == 0ull) { r_m4 = 0u; goto l_std_lh; }
    r_pv_33 = r_c4_36;
    r_m0_33 = r_0f_33;
    r_w9_33 = r_62_35;
    goto l_arm_td_33;
l_else_xb:;
    u8 r_7n = core_fmt_formatter_Formatter_write_indented_bf264aed5fa78656(a_1, ((u8 *)g_static_98), 14ull);
    r_m4 = r_7n;
    goto l_std_lh;
l_arm_lx_33:;
    if (!r_ts) goto l_else_3j;
    r_ym_37 = away(a_1, 1032ull);
    r_1x_37 = away(a_1, 4ull);
    r_pv_34 = ld64(r_ym_37);
    r_m0_34 = 16ull;
    r_w9_34 = ((u8 *)g_static_99);
l_arm_td_34:;
    r_62_36 = away(r_w9_34, 1ull);
    r_0f_34 = (r_m0_34 + 0xffffffffffffffffull);
    r_47_37 = ld8(r_w9_34);
    if (!(r_pv_34 > 1023ull)) { r_km_36 = r_pv_34; goto l_std_41_36; }
    u8 r_ba_37 = std_io_io_buffer_Buffer_flush(a_1);
    if (!r_ba_37) { r_m4 = 1u; goto l_std_lh; }
    u64 r_38_40 = ld64(r_ym_37);
    if (r_38_40 > 1023ull) { r_m4 = 1u; goto l_std_lh; }
    r_km_36 = r_38_40;
l_std_41_36:;
    st8((r_1x_37 + (i64)(r_km_36)), r_47_37);
    u64 r_c4_37 = (r_km_36 + 1ull);
    st64(r_ym_37, r_c4_37);
    if (r_0f_34 == 0ull) { r_m4 = 0u; goto l_std_lh; }
    r_pv_34 = r_c4_37;
    r_m0_34 = r_0f_34;
    r_w9_34 = r_62_36;
    goto l_arm_td_34;
l_else_3j:;
    u8 r_vl = core_fmt_formatter_Formatter_write_indented_bf264aed5fa78656(a_1, ((u8 *)g_static_99), 16ull);
    r_m4 = r_vl;
    goto l_std_lh;
l_arm_lx_34:;
    if (!r_ts) goto l_else_gt;
    r_ym_38 = away(a_1, 1032ull);
    r_1x_38 = away(a_1, 4ull);
    r_pv_35 = ld64(r_ym_38);
    r_m0_35 = 22ull;
    r_w9_35 = ((u8 *)g_static_100);
l_arm_td_35:;
    r_62_37 = away(r_w9_35, 1ull);
    r_0f_35 = (r_m0_35 + 0xffffffffffffffffull);
    r_47_38 = ld8(r_w9_35);
    if (!(r_pv_35 > 1023ull)) { r_km_37 = r_pv_35; goto l_std_41_37; }
    u8 r_ba_38 = std_io_io_buffer_Buffer_flush(a_1);
    if (!r_ba_38) { r_m4 = 1u; goto l_std_lh; }
    u64 r_38_41 = ld64(r_ym_38);
    if (r_38_41 > 1023ull) { r_m4 = 1u; goto l_std_lh; }
    r_km_37 = r_38_41;
l_std_41_37:;
    st8((r_1x_38 + (i64)(r_km_37)), r_47_38);
    u64 r_c4_38 = (r_km_37 + 1ull);
    st64(r_ym_38, r_c4_38);
    if (r_0f_35 == 0ull) { r_m4 = 0u; goto l_std_lh; }
    r_pv_35 = r_c4_38;
    r_m0_35 = r_0f_35;
    r_w9_35 = r_62_37;
    goto l_arm_td_35;
l_else_gt:;
    u8 r_hs = core_fmt_formatter_Formatter_write_indented_bf264aed5fa78656(a_1, ((u8 *)g_static_100), 22ull);
    r_m4 = r_hs;
    goto l_std_lh;
l_arm_lx_35:;
    if (!r_ts) goto l_else_je;
    r_ym_39 = away(a_1, 1032ull);
    r_1x_39 = away(a_1, 4ull);
    r_pv_36 = ld64(r_ym_39);
    r_m0_36 = 21ull;
    r_w9_36 = ((u8 *)g_static_101);
l_arm_td_36:;
    r_62_38 = away(r_w9_36, 1ull);
    r_0f_36 = (r_m0_36 + 0xffffffffffffffffull);
    r_47_39 = ld8(r_w9_36);
    if (!(r_pv_36 > 1023ull)) { r_km_38 = r_pv_36; goto l_std_41_38; }
    u8 r_ba_39 = std_io_io_buffer_Buffer_flush(a_1);
    if (!r_ba_39) { r_m4 = 1u; goto l_std_lh; }
    u64 r_38_42 = ld64(r_ym_39);
    if (r_38_42 > 1023ull) { r_m4 = 1u; goto l_std_lh; }
    r_km_38 = r_38_42;
l_std_41_38:;
    st8((r_1x_39 + (i64)(r_km_38)), r_47_39);
    u64 r_c4_39 = (r_km_38 + 1ull);
    st64(r_ym_39, r_c4_39);
    if (r_0f_36 == 0ull) { r_m4 = 0u; goto l_std_lh; }
    r_pv_36 = r_c4_39;
    r_m0_36 = r_0f_36;
    r_w9_36 = r_62_38;
    goto l_arm_td_36;
l_else_je:;
    u8 r_l9 = core_fmt_formatter_Formatter_write_indented_bf264aed5fa78656(a_1, ((u8 *)g_static_101), 21ull);
    r_m4 = r_l9;
    goto l_std_lh;
l_arm_lx_36:;
    if (!r_ts) goto l_else_8h;
    r_ym_40 = away(a_1, 1032ull);
    r_1x_40 = away(a_1, 4ull);
    r_pv_37 = ld64(r_ym_40);
    r_m0_37 = 11ull;
    r_w9_37 = ((u8 *)g_static_102);
l_arm_td_37:;
    r_62_39 = away(r_w9_37, 1ull);
    r_0f_37 = (r_m0_37 + 0xffffffffffffffffull);
    r_47_40 = ld8(r_w9_37);
    if (!(r_pv_37 > 1023ull)) { r_km_39 = r_pv_37; goto l_std_41_39; }
    u8 r_ba_40 = std_io_io_buffer_Buffer_flush(a_1);
    if (!r_ba_40) { r_m4 = 1u; goto l_std_lh; }
    u64 r_38_43 = ld64(r_ym_40);
    if (r_38_43 > 1023ull) { r_m4 = 1u; goto l_std_lh; }
    r_km_39 = r_38_43;
l_std_41_39:;
    st8((r_1x_40 + (i64)(r_km_39)), r_47_40);
    u64 r_c4_40 = (r_km_39 + 1ull);
    st64(r_ym_40, r_c4_40);
    if (r_0f_37 == 0ull) { r_m4 = 0u; goto l_std_lh; }
    r_pv_37 = r_c4_40;
    r_m0_37 = r_0f_37;
    r_w9_37 = r_62_39;
    goto l_arm_td_37;
l_else_8h:;
    u8 r_mt = core_fmt_formatter_Formatter_write_indented_bf264aed5fa78656(a_1, ((u8 *)g_static_102), 11ull);
    r_m4 = r_mt;
    goto l_std_lh;
l_arm_lx_37:;
    if (!r_ts) goto l_else_0k;
    r_ym_41 = away(a_1, 1032ull);
    r_1x_41 = away(a_1, 4ull);
    r_pv_38 = ld64(r_ym_41);
    r_m0_38 = 22ull;
    r_w9_38 = ((u8 *)g_static_103);
l_arm_td_38:;
    r_62_40 = away(r_w9_38, 1ull);
    r_0f_38 = (r_m0_38 + 0xffffffffffffffffull);
    r_47_41 = ld8(r_w9_38);
    if (!(r_pv_38 > 1023ull)) { r_km_40 = r_pv_38; goto l_std_41_40; }
    u8 r_ba_41 = std_io_io_buffer_Buffer_flush(a_1);
    if (!r_ba_41) { r_m4 = 1u; goto l_std_lh; }
    u64 r_38_44 = ld64(r_ym_41);
    if (r_38_44 > 1023ull) { r_m4 = 1u; goto l_std_lh; }
    r_km_40 = r_38_44;
l_std_41_40:;
    st8((r_1x_41 + (i64)(r_km_40)), r_47_41);
    u64 r_c4_41 = (r_km_40 + 1ull);
    st64(r_ym_41, r_c4_41);
    if (r_0f_38 == 0ull) { r_m4 = 0u; goto l_std_lh; }
    r_pv_38 = r_c4_41;
    r_m0_38 = r_0f_38;
    r_w9_38 = r_62_40;
    goto l_arm_td_38;
l_else_0k:;
    u8 r_6l = core_fmt_formatter_Formatter_write_indented_bf264aed5fa78656(a_1, ((u8 *)g_static_103), 22ull);
    r_m4 = r_6l;
    goto l_std_lh;
l_arm_lx_38:;
    if (!r_ts) goto l_else_tf;
    r_ym_42 = away(a_1, 1032ull);
    r_1x_42 = away(a_1, 4ull);
    r_pv_39 = ld64(r_ym_42);
    r_m0_39 = 13ull;
    r_w9_39 = ((u8 *)g_static_104);
l_arm_td_39:;
    r_62_41 = away(r_w9_39, 1ull);
    r_0f_39 = (r_m0_39 + 0xffffffffffffffffull);
    r_47_42 = ld8(r_w9_39);
    if (!(r_pv_39 > 1023ull)) { r_km_41 = r_pv_39; goto l_std_41_41; }
    u8 r_ba_42 = std_io_io_buffer_Buffer_flush(a_1);
    if (!r_ba_42) { r_m4 = 1u; goto l_std_lh; }
    u64 r_38_45 = ld64(r_ym_42);
    if (r_38_45 > 1023ull) { r_m4 = 1u; goto l_std_lh; }
    r_km_41 = r_38_45;
l_std_41_41:;
    st8((r_1x_42 + (i64)(r_km_41)), r_47_42);
    u64 r_c4_42 = (r_km_41 + 1ull);
    st64(r_ym_42, r_c4_42);
    if (r_0f_39 == 0ull) { r_m4 = 0u; goto l_std_lh; }
    r_pv_39 = r_c4_42;
    r_m0_39 = r_0f_39;
    r_w9_39 = r_62_41;
    goto l_arm_td_39;
l_else_tf:;
    u8 r_ol = core_fmt_formatter_Formatter_write_indented_bf264aed5fa78656(a_1, ((u8 *)g_static_104), 13ull);
    r_m4 = r_ol;
    goto l_std_lh;
l_arm_lx_39:;
    if (!r_ts) goto l_else_pn;
    r_ym_43 = away(a_1, 1032ull);
    r_1x_43 = away(a_1, 4ull);
    r_pv_40 = ld64(r_ym_43);
    r_m0_40 = 11ull;
    r_w9_40 = ((u8 *)g_static_105);
l_arm_td_40:;
    r_62_42 = away(r_w9_40, 1ull);
    r_0f_40 = (r_m0_40 + 0xffffffffffffffffull);
    r_47_43 = ld8(r_w9_40);
    if (!(r_pv_40 > 1023ull)) { r_km_42 = r_pv_40; goto l_std_41_42; }
    u8 r_ba_43 = std_io_io_buffer_Buffer_flush(a_1);
    if (!r_ba_43) { r_m4 = 1u; goto l_std_lh; }
    u64 r_38_46 = ld64(r_ym_43);
    if (r_38_46 > 1023ull) { r_m4 = 1u; goto l_std_lh; }
    r_km_42 = r_38_46;
l_std_41_42:;
    st8((r_1x_43 + (i64)(r_km_42)), r_47_43);
    u64 r_c4_43 = (r_km_42 + 1ull);
    st64(r_ym_43, r_c4_43);
    if (r_0f_40 == 0ull) { r_m4 = 0u; goto l_std_lh; }
    r_pv_40 = r_c4_43;
    r_m0_40 = r_0f_40;
    r_w9_40 = r_62_42;
    goto l_arm_td_40;
l_else_pn:;
    u8 r_z2 = core_fmt_formatter_Formatter_write_indented_bf264aed5fa78656(a_1, ((u8 *)g_static_105), 11ull);
    r_m4 = r_z2;
    goto l_std_lh;
l_arm_lx_40:;
    if (!r_ts) goto l_else_p5;
    r_ym_44 = away(a_1, 1032ull);
    r_1x_44 = away(a_1, 4ull);
    r_pv_41 = ld64(r_ym_44);
    r_m0_41 = 11ull;
    r_w9_41 = ((u8 *)g_static_106);
l_arm_td_41:;
    r_62_43 = away(r_w9_41, 1ull);
    r_0f_41 = (r_m0_41 + 0xffffffffffffffffull);
    r_47_44 = ld8(r_w9_41);
    if (!(r_pv_41 > 1023ull)) { r_km_43 = r_pv_41; goto l_std_41_43; }
    u8 r_ba_44 = std_io_io_buffer_Buffer_flush(a_1);
    if (!r_ba_44) { r_m4 = 1u; goto l_std_lh; }
    u64 r_38_47 = ld64(r_ym_44);
    if (r_38_47 > 1023ull) { r_m4 = 1u; goto l_std_lh; }
    r_km_43 = r_38_47;
l_std_41_43:;
    st8((r_1x_44 + (i64)(r_km_43)), r_47_44);
    u64 r_c4_44 = (r_km_43 + 1ull);
    st64(r_ym_44, r_c4_44);
    if (r_0f_41 == 0ull) { r_m4 = 0u; goto l_std_lh; }
    r_pv_41 = r_c4_44;
    r_m0_41 = r_0f_41;
    r_w9_41 = r_62_43;
    goto l_arm_td_41;
l_else_p5:;
    u8 r_vb = core_fmt_formatter_Formatter_write_indented_bf264aed5fa78656(a_1, ((u8 *)g_static_106), 11ull);
    r_m4 = r_vb;
    goto l_std_lh;
l_arm_lx_41:;
    if (!r_ts) goto l_else_p1;
l_then_je:;
    r_ym_45 = away(a_1, 1032ull);
    r_1x_45 = away(a_1, 4ull);
    r_pv_42 = ld64(r_ym_45);
    r_m0_42 = 19ull;
    r_w9_42 = ((u8 *)g_static_107);
l_arm_td_42:;
    r_62_44 = away(r_w9_42, 1ull);
    r_0f_42 = (r_m0_42 + 0xffffffffffffffffull);
    r_47_45 = ld8(r_w9_42);
    if (!(r_pv_42 > 1023ull)) { r_km_44 = r_pv_42; goto l_std_41_44; }
    u8 r_ba_45 = std_io_io_buffer_Buffer_flush(a_1);
    if (!r_ba_45) { r_m4 = 1u; goto l_std_lh; }
    u64 r_38_48 = ld64(r_ym_45);
    if (r_38_48 > 1023ull) { r_m4 = 1u; goto l_std_lh; }
    r_km_44 = r_38_48;
l_std_41_44:;
    st8((r_1x_45 + (i64)(r_km_44)), r_47_45);
    u64 r_c4_45 = (r_km_44 + 1ull);
    st64(r_ym_45, r_c4_45);
    if (r_0f_42 == 0ull) { r_m4 = 0u; goto l_std_lh; }
    r_pv_42 = r_c4_45;
    r_m0_42 = r_0f_42;
    r_w9_42 = r_62_44;
    goto l_arm_td_42;
l_else_p1:;
    u8 r_6d = core_fmt_formatter_Formatter_write_indented_bf264aed5fa78656(a_1, ((u8 *)g_static_107), 19ull);
    r_m4 = r_6d;
    goto l_std_lh;
l_noarm_e1:;
    UNREACHABLE();
l_default_5w:;
    if (!(ld64(r_g7) == 0ull)) goto l_after_03;
    if (r_vj > ld64(r_fn)) goto l_after_03;
    if (!(ld64(away(a_1, 1160ull)) == 0ull)) goto l_else_xg;
    if (r_vj == 0ull) { r_m4 = 0u; goto l_std_lh; }
    r_ym_46 = away(a_1, 1032ull);
    r_1x_46 = away(a_1, 4ull);
    r_9w_2 = ld64(r_ym_46);
    r_uj_2 = r_38;
    r_35_2 = r_ty;
l_arm_65_2:;
    r_62_45 = away(r_35_2, 1ull);
    r_zn_3 = (r_uj_2 + 0xffffffffffffffffull);
    r_47_46 = ld8(r_35_2);
    if (!(r_9w_2 > 1023ull)) { r_km_45 = r_9w_2; goto l_std_41_45; }
    u8 r_ba_46 = std_io_io_buffer_Buffer_flush(a_1);
    if (!r_ba_46) { r_m4 = 1u; goto l_std_lh; }
    u64 r_38_49 = ld64(r_ym_46);
    if (r_38_49 > 1023ull) { r_m4 = 1u; goto l_std_lh; }
    r_km_45 = r_38_49;
l_std_41_45:;
    st8((r_1x_46 + (i64)(r_km_45)), r_47_46);
    u64 r_c4_46 = (r_km_45 + 1ull);
    st64(r_ym_46, r_c4_46);
    if (r_zn_3 == 0ull) { r_m4 = 0u; goto l_std_lh; }
    r_9w_2 = r_c4_46;
    r_uj_2 = r_zn_3;
    r_35_2 = r_62_45;
    goto l_arm_65_2;
l_else_xg:;
    u8 r_q3_2 = core_fmt_formatter_Formatter_write_indented_bf264aed5fa78656(a_1, r_ty, r_vj);
    r_m4 = r_q3_2;
    goto l_std_lh;
l_after_03:;
    u8 r_rr = core_fmt_formatter_Formatter_cut_and_fill_bf264aed5fa78656(a_1, r_ty, r_vj);
    r_m4 = r_rr;
l_std_lh:;
    return r_m4;
}

/* std_io::io::LibcRuntimeEprint::eprintln::<#cf6e6774fefd6f40> */
void std_io_io_LibcRuntimeEprint_eprintln_cf6e6774fefd6f40(u8 *a_1, u8 *a_2)
{
    A(8) u8 slot_1[1136];
    A(1) u8 slot_2[64];
    A(8) u8 slot_3[64];
    A(8) u8 slot_4[1176];
    A(8) u8 slot_5[64];
    A(8) u8 slot_6[64];
    u8 *r_mb;
    u64 r_qw;
    u8 *r_rv;
    u64 r_qw_1;
    u8 *r_rv_1;
    u64 r_qw_2;
    u8 *r_rv_2;
    u8 *r_ix;
    u8 *r_s4;
    u8 *r_uy;
    u8 *r_ky;
    u8 *r_lp;
    u8 *r_e1;
    u64 r_9w;
    u64 r_uj;
    u8 *r_35;
    u8 *r_62;
    u64 r_zn;
    u8 r_47;
    u64 r_km;
    u64 r_c4;
    u64 r_5a;
    u8 *r_e1_1;
    u64 r_9w_1;
    u64 r_uj_1;
    u8 *r_35_1;
    u8 *r_62_1;
    u64 r_zn_1;
    u8 r_47_1;
    u64 r_km_1;
    u8 *r_e1_2;
    u64 r_9w_2;
    u64 r_uj_2;
    u8 *r_35_2;
    u8 *r_62_2;
    u64 r_zn_2;
    u8 r_47_2;
    u64 r_km_2;
    u8 *r_lz;
    u64 r_52;
    u8 *r_e1_3;
    u64 r_9w_3;
    u64 r_uj_3;
    u8 *r_35_3;
    u8 *r_62_3;
    u64 r_zn_3;
    u8 r_47_3;
    u64 r_km_3;
    u8 *r_e1_4;
    u64 r_4x;
    u8 r_bu;
    u8 r_b2;
    u8 r_jt;
    u8 r_qc;
    u8 r_yd;
    u8 r_x1;
    u32 r_g6;
    u64 r_qc_1;
    u64 r_bi;
    u8 r_u5;
    u8 r_mz;
    u8 r_pi;
    u8 r_gx;
    u8 r_wb;
    u32 r_8b;
    u64 r_59;
    u64 r_nl;
    r_mb = ldp(a_2);
    r_qw = ld64((a_2 + 8));
    r_rv = ldp((a_2 + 16));
    r_qw_1 = ld64((a_2 + 24));
    r_rv_1 = ldp((a_2 + 32));
    r_qw_2 = ld64((a_2 + 40));
    r_rv_2 = ldp((a_2 + 48));
    memset(slot_6, 0u, 64);
    memset(slot_5, 0u, 64);
    memset(slot_3, 0u, 64);
    st32(slot_4, 2u);
    r_ix = (slot_4 + 4);
    memset(r_ix, 0u, 1132);
    r_s4 = (slot_4 + 1136);
    st32(r_s4, 32u);
    r_uy = (slot_4 + 1140);
    r_ky = (slot_4 + 1152);
    memset(r_uy, 0u, 12);
    st64(r_ky, 0xffffffffffffffffull);
    r_lp = (slot_4 + 1160);
    memset(r_lp, 0u, 16);
    mv24(slot_1, r_s4);
    st32(r_s4, 32u);
    memset(r_uy, 0u, 12);
    st64(r_ky, 0xffffffffffffffffull);
    if (r_qw == 0ull) { r_5a = 0ull; goto l_then_7z; }
    r_e1 = (slot_4 + 1032);
    r_9w = 0ull;
    r_uj = r_qw;
    r_35 = r_mb;
l_arm_65:;
    r_62 = away(r_35, 1ull);
    r_zn = (r_uj + 0xffffffffffffffffull);
    r_47 = ld8(r_35);
    if (!(r_9w > 1023ull)) { r_km = r_9w; goto l_std_41; }
    u8 r_m5 = std_io_io_buffer_Buffer_flush(slot_4);
    u64 r_38 = ld64(r_e1);
    if (r_m5 ? (r_38 < 1024ull) : 0u) { r_km = r_38; goto l_std_41; }
    goto l_core_pf;
l_std_41:;
    st8((r_ix + (i64)(r_km)), r_47);
    r_c4 = (r_km + 1ull);
    st64(r_e1, r_c4);
    if (!(r_zn == 0ull)) { r_9w = r_c4; r_uj = r_zn; r_35 = r_62; goto l_arm_65; }
    u8 t_ts = (ld64(r_lp) == 0ull);
    st32(r_s4, 32u);
    memset(r_uy, 0u, 12);
    st64(r_ky, 0xffffffffffffffffull);
    if (t_ts) { r_5a = r_c4; goto l_then_7z; }
    goto l_core_rq;
l_then_7z:;
    if (!(r_qw_1 == 0ull)) goto l_arm_yd;
    st32(r_s4, 32u);
    memset(r_uy, 0u, 12);
    st64(r_ky, 0xffffffffffffffffull);
    goto l_then_7z_1;
l_arm_yd:;
    r_e1_1 = (slot_4 + 1032);
    r_9w_1 = r_5a;
    r_uj_1 = r_qw_1;
    r_35_1 = r_rv;
l_arm_65_1:;
    r_62_1 = away(r_35_1, 1ull);
    r_zn_1 = (r_uj_1 + 0xffffffffffffffffull);
    r_47_1 = ld8(r_35_1);
    if (!(r_9w_1 > 1023ull)) { r_km_1 = r_9w_1; goto l_std_41_1; }
    u8 r_m5_1 = std_io_io_buffer_Buffer_flush(slot_4);
    u64 r_38_1 = ld64(r_e1_1);
    if (r_m5_1 ? (r_38_1 < 1024ull) : 0u) { r_km_1 = r_38_1; goto l_std_41_1; }
    goto l_core_pf;
l_std_41_1:;
    st8((r_ix + (i64)(r_km_1)), r_47_1);
    u64 r_c4_1 = (r_km_1 + 1ull);
    st64(r_e1_1, r_c4_1);
    if (r_zn_1 == 0ull) goto l_arm_g6;
    r_9w_1 = r_c4_1;
    r_uj_1 = r_zn_1;
    r_35_1 = r_62_1;
    goto l_arm_65_1;
l_core_rq:;
    u8 r_sr = core_fmt_formatter_Formatter_write_indented_bf264aed5fa78656(slot_4, r_rv, r_qw_1);
    if (!(r_sr == 0u)) goto l_core_pf;
l_arm_g6:;
    u64 r_38_2 = ld64(r_lp);
    st32(r_s4, 32u);
    memset(r_uy, 0u, 12);
    st64(r_ky, 0xffffffffffffffffull);
    if (!(r_38_2 == 0ull)) goto l_core_rq_1;
l_then_7z_1:;
    if (r_qw_2 == 0ull) goto l_arm_h0;
    r_e1_2 = (slot_4 + 1032);
    r_9w_2 = ld64(r_e1_2);
    r_uj_2 = r_qw_2;
    r_35_2 = r_rv_1;
l_arm_65_2:;
    r_62_2 = away(r_35_2, 1ull);
    r_zn_2 = (r_uj_2 + 0xffffffffffffffffull);
    r_47_2 = ld8(r_35_2);
    if (!(r_9w_2 > 1023ull)) { r_km_2 = r_9w_2; goto l_std_41_2; }
    u8 r_m5_2 = std_io_io_buffer_Buffer_flush(slot_4);
    u64 r_38_3 = ld64(r_e1_2);
    if (r_m5_2 ? (r_38_3 < 1024ull) : 0u) { r_km_2 = r_38_3; goto l_std_41_2; }
    goto l_core_pf;
l_std_41_2:;
    st8((r_ix + (i64)(r_km_2)), r_47_2);
    u64 r_c4_2 = (r_km_2 + 1ull);
    st64(r_e1_2, r_c4_2);
    if (r_zn_2 == 0ull) goto l_arm_h0;
    r_9w_2 = r_c4_2;
    r_uj_2 = r_zn_2;
    r_35_2 = r_62_2;
    goto l_arm_65_2;
l_core_rq_1:;
    u8 r_sr_1 = core_fmt_formatter_Formatter_write_indented_bf264aed5fa78656(slot_4, r_rv_1, r_qw_2);
    if (!(r_sr_1 == 0u)) goto l_core_pf;
l_arm_h0:;
    st32(r_s4, 32u);
    memset(r_uy, 0u, 12);
    st64(r_ky, 0xffffffffffffffffull);
    r_lz = ldp(r_rv_2);
    r_52 = ld64(away(r_rv_2, 8ull));
    if (!(ld64(r_lp) == 0ull)) goto l_core_id;
    if (r_52 == 0ull) goto l_core_3b;
    r_e1_3 = (slot_4 + 1032);
    r_9w_3 = ld64(r_e1_3);
    r_uj_3 = r_52;
    r_35_3 = r_lz;
l_arm_65_3:;
    r_62_3 = away(r_35_3, 1ull);
    r_zn_3 = (r_uj_3 + 0xffffffffffffffffull);
    r_47_3 = ld8(r_35_3);
    if (!(r_9w_3 > 1023ull)) { r_km_3 = r_9w_3; goto l_std_41_3; }
    u8 r_m5_3 = std_io_io_buffer_Buffer_flush(slot_4);
    u64 r_38_4 = ld64(r_e1_3);
    if (r_m5_3 ? (r_38_4 < 1024ull) : 0u) { r_km_3 = r_38_4; goto l_std_41_3; }
    goto l_core_pf;
l_std_41_3:;
    st8((r_ix + (i64)(r_km_3)), r_47_3);
    u64 r_c4_3 = (r_km_3 + 1ull);
    st64(r_e1_3, r_c4_3);
    if (r_zn_3 == 0ull) goto l_core_3b;
    r_9w_3 = r_c4_3;
    r_uj_3 = r_zn_3;
    r_35_3 = r_62_3;
    goto l_arm_65_3;
l_core_pf:;
    mv24(r_s4, slot_1);
    r_b2 = 0u;
    goto l_join_2k;
l_core_3b:;
    mv24(r_s4, slot_1);
    goto l_arm_9c;
l_core_id:;
    u8 r_sr_2 = core_fmt_formatter_Formatter_write_indented_bf264aed5fa78656(slot_4, r_lz, r_52);
    mv24(r_s4, slot_1);
    if (!(r_sr_2 == 0u)) { r_b2 = 0u; goto l_join_2k; }
l_arm_9c:;
    mv24(slot_1, r_s4);
    st32(r_s4, 32u);
    memset(r_uy, 0u, 12);
    st64(r_ky, 0xffffffffffffffffull);
    if (!(ld64(r_lp) == 0ull)) goto l_else_7o;
    r_e1_4 = (slot_4 + 1032);
    u64 r_38_5 = ld64(r_e1_4);
    if (!(r_38_5 > 1023ull)) { r_4x = r_38_5; goto l_std_vs; }
    u8 r_m5_4 = std_io_io_buffer_Buffer_flush(slot_4);
    u64 r_38_6 = ld64(r_e1_4);
    if (r_m5_4 ? (r_38_6 < 1024ull) : 0u) { r_4x = r_38_6; goto l_std_vs; }
    r_bu = 0u;
    goto l_core_pf_1;
l_std_vs:;
    st8((r_ix + (i64)(r_4x)), 10u);
    st64(r_e1_4, (r_4x + 1ull));
    r_bu = 1u;
    goto l_core_pf_1;
l_else_7o:;
    u8 r_9h = core_fmt_formatter_Formatter_write_indented_bf264aed5fa78656(slot_4, ((u8 *)g_static_7), 1ull);
    r_bu = (r_9h == 0u);
l_core_pf_1:;
    mv24(r_s4, slot_1);
    r_b2 = r_bu;
l_join_2k:;
    st32(slot_1, ld32(slot_4));
    memcpy((slot_1 + 4), r_ix, 1132);
    u8 r_vx = std_io_io_buffer_Buffer_flush(slot_1);
    if (!(u8)((u8)r_b2 & (u8)r_vx)) goto l_join_to;
    memset(slot_3, 0u, 64);
    r_u5 = 0u;
    r_mz = 0u;
    r_pi = 0u;
    r_gx = 0u;
    r_wb = 0u;
    r_8b = 0u;
    r_59 = 0ull;
    r_nl = 0ull;
    goto l_std_jl;
l_join_to:;
    if (!(ld8((slot_1 + 1040)) == 1u)) goto l_arm_or;
    u8 r_r5 = ld8((slot_1 + 1048));
    u8 r_dd = ld8((slot_1 + 1049));
    u8 r_sw = ld8((slot_1 + 1050));
    u8 r_dd_1 = ld8((slot_1 + 1051));
    u32 r_uq = ld32((slot_1 + 1052));
    u64 r_38_7 = ld64((slot_1 + 1056));
    u64 r_38_8 = ld64((slot_1 + 1064));
    mv64(slot_2, (slot_1 + 1072));
    r_jt = r_r5;
    r_qc = r_dd;
    r_yd = r_sw;
    r_x1 = r_dd_1;
    r_g6 = r_uq;
    r_qc_1 = r_38_7;
    r_bi = r_38_8;
    goto l_join_qx;
l_arm_or:;
    memset(slot_2, 46u, 64);
    r_jt = 2u;
    r_qc = 41u;
    r_yd = 15u;
    r_x1 = 0u;
    r_g6 = 0u;
    r_qc_1 = 0x657474616d726f66ull;
    r_bi = 0x2e726f7272652072ull;
l_join_qx:;
    mv64(slot_3, slot_2);
    r_u5 = 1u;
    r_mz = r_jt;
    r_pi = r_qc;
    r_gx = r_yd;
    r_wb = r_x1;
    r_8b = r_g6;
    r_59 = r_qc_1;
    r_nl = r_bi;
l_std_jl:;
    mv64(slot_5, slot_3);
    mv64(slot_6, slot_5);
    st8(a_1, r_u5);
    st8(away(a_1, 8ull), r_mz);
    st8(away(a_1, 9ull), r_pi);
    st8(away(a_1, 10ull), r_gx);
    st8(away(a_1, 11ull), r_wb);
    st32(away(a_1, 12ull), r_8b);
    st64(away(a_1, 16ull), r_59);
    st64(away(a_1, 24ull), r_nl);
    mv64(away(a_1, 32ull), slot_6);
    return;
}

/* std_io::io::LibcRuntimeEprint::eprintln::<#213d5a088f689746> */
void std_io_io_LibcRuntimeEprint_eprintln_213d5a088f689746(u8 *a_1, u8 *a_2)
{
    A(8) u8 slot_1[1136];
    A(1) u8 slot_2[64];
    A(8) u8 slot_3[64];
    A(8) u8 slot_4[56];
    A(8) u8 slot_5[1176];
    A(8) u8 slot_6[64];
    A(8) u8 slot_7[64];
    u8 *r_ix;
    u8 *r_s4;
    u8 *r_uy;
    u8 *r_ky;
    u8 *r_lp;
    u8 *r_zd;
    u8 *r_89;
    u8 *r_c4;
    u64 r_38;
    u8 *r_e1;
    u64 r_9w;
    u64 r_uj;
    u8 *r_35;
    u8 *r_62;
    u64 r_zn;
    u8 r_47;
    u64 r_km;
    u64 r_c4_1;
    u8 *r_xw;
    u64 r_38_2;
    u64 r_5a;
    u64 r_2l;
    u8 *r_9a;
    u8 *r_e1_1;
    u64 r_9w_1;
    u64 r_uj_1;
    u8 *r_35_1;
    u8 *r_62_1;
    u64 r_zn_1;
    u8 r_47_1;
    u64 r_km_1;
    u8 *r_xw_1;
    u64 r_38_4;
    u64 r_ry;
    u8 *r_9n;
    u8 *r_e1_2;
    u64 r_9w_2;
    u64 r_uj_2;
    u8 *r_35_2;
    u8 *r_62_2;
    u64 r_zn_2;
    u8 r_47_2;
    u64 r_km_2;
    u8 *r_e1_3;
    u64 r_4x;
    u8 r_bu;
    u8 r_b2;
    u8 r_jt;
    u8 r_qc;
    u8 r_yd;
    u8 r_x1;
    u32 r_g6;
    u64 r_qc_1;
    u64 r_bi;
    u8 r_u5;
    u8 r_mz;
    u8 r_pi;
    u8 r_gx;
    u8 r_wb;
    u32 r_8b;
    u64 r_59;
    u64 r_nl;
    memset(slot_7, 0u, 64);
    mv56(slot_4, a_2);
    memset(slot_6, 0u, 64);
    memset(slot_3, 0u, 64);
    st32(slot_5, 2u);
    r_ix = (slot_5 + 4);
    memset(r_ix, 0u, 1132);
    r_s4 = (slot_5 + 1136);
    st32(r_s4, 32u);
    r_uy = (slot_5 + 1140);
    r_ky = (slot_5 + 1152);
    memset(r_uy, 0u, 12);
    st64(r_ky, 0xffffffffffffffffull);
    r_lp = (slot_5 + 1160);
    memset(r_lp, 0u, 16);
    mv24(slot_1, r_s4);
    r_zd = (slot_4 + 16);
    r_89 = (slot_4 + 32);
    r_c4 = (slot_4 + 48);
    st32(r_s4, 32u);
    memset(r_uy, 0u, 12);
    st64(r_ky, 0xffffffffffffffffull);
    r_38 = ld64((slot_4 + 8));
    if (!(r_38 == 0ull)) goto l_arm_lg;
    r_5a = 0ull;
    r_2l = ld64((slot_4 + 24));
    r_9a = ldp(r_zd);
    goto l_then_7z;
l_arm_lg:;
    r_e1 = (slot_5 + 1032);
    r_9w = 0ull;
    r_uj = r_38;
    r_35 = ldp(slot_4);
l_arm_65:;
    r_62 = away(r_35, 1ull);
    r_zn = (r_uj + 0xffffffffffffffffull);
    r_47 = ld8(r_35);
    if (!(r_9w > 1023ull)) { r_km = r_9w; goto l_std_41; }
    u8 r_m5 = std_io_io_buffer_Buffer_flush(slot_5);
    u64 r_38_1 = ld64(r_e1);
    if (r_m5 ? (r_38_1 < 1024ull) : 0u) { r_km = r_38_1; goto l_std_41; }
    goto l_core_pf;
l_std_41:;
    st8((r_ix + (i64)(r_km)), r_47);
    r_c4_1 = (r_km + 1ull);
    st64(r_e1, r_c4_1);
    if (!(r_zn == 0ull)) { r_9w = r_c4_1; r_uj = r_zn; r_35 = r_62; goto l_arm_65; }
    u8 t_ts = (ld64(r_lp) == 0ull);
    st32(r_s4, 32u);
    memset(r_uy, 0u, 12);
    st64(r_ky, 0xffffffffffffffffull);
    r_xw = ldp(r_zd);
    r_38_2 = ld64((slot_4 + 24));
    if (t_ts) { r_5a = r_c4_1; r_2l = r_38_2; r_9a = r_xw; goto l_then_7z; }
    goto l_core_rq;
l_then_7z:;
    if (!(r_2l == 0ull)) goto l_arm_yd;
    st32(r_s4, 32u);
    memset(r_uy, 0u, 12);
    st64(r_ky, 0xffffffffffffffffull);
    r_ry = ld64((slot_4 + 40));
    r_9n = ldp(r_89);
    goto l_then_mi;
l_arm_yd:;
    r_e1_1 = (slot_5 + 1032);
    r_9w_1 = r_5a;
    r_uj_1 = r_2l;
    r_35_1 = r_9a;
l_arm_65_1:;
    r_62_1 = away(r_35_1, 1ull);
    r_zn_1 = (r_uj_1 + 0xffffffffffffffffull);
    r_47_1 = ld8(r_35_1);
    if (!(r_9w_1 > 1023ull)) { r_km_1 = r_9w_1; goto l_std_41_1; }
    u8 r_m5_1 = std_io_io_buffer_Buffer_flush(slot_5);
    u64 r_38_3 = ld64(r_e1_1);
    if (r_m5_1 ? (r_38_3 < 1024ull) : 0u) { r_km_1 = r_38_3; goto l_std_41_1; }
    goto l_core_pf;
l_std_41_1:;
    st8((r_ix + (i64)(r_km_1)), r_47_1);
    u64 r_c4_2 = (r_km_1 + 1ull);
    st64(r_e1_1, r_c4_2);
    if (r_zn_1 == 0ull) goto l_arm_21;
    r_9w_1 = r_c4_2;
    r_uj_1 = r_zn_1;
    r_35_1 = r_62_1;
    goto l_arm_65_1;
l_core_rq:;
    u8 r_sr = core_fmt_formatter_Formatter_write_indented_bf264aed5fa78656(slot_5, r_xw, r_38_2);
    if (!(r_sr == 0u)) goto l_core_pf;
l_arm_21:;
    u8 t_ts_1 = (ld64(r_lp) == 0ull);
    st32(r_s4, 32u);
    memset(r_uy, 0u, 12);
    st64(r_ky, 0xffffffffffffffffull);
    r_xw_1 = ldp(r_89);
    r_38_4 = ld64((slot_4 + 40));
    if (t_ts_1) { r_ry = r_38_4; r_9n = r_xw_1; goto l_then_mi; }
    goto l_core_en;
l_then_mi:;
    if (r_ry == 0ull) goto l_core_ca;
    r_e1_2 = (slot_5 + 1032);
    r_9w_2 = ld64(r_e1_2);
    r_uj_2 = r_ry;
    r_35_2 = r_9n;
l_arm_65_2:;
    r_62_2 = away(r_35_2, 1ull);
    r_zn_2 = (r_uj_2 + 0xffffffffffffffffull);
    r_47_2 = ld8(r_35_2);
    if (!(r_9w_2 > 1023ull)) { r_km_2 = r_9w_2; goto l_std_41_2; }
    u8 r_m5_2 = std_io_io_buffer_Buffer_flush(slot_5);
    u64 r_38_5 = ld64(r_e1_2);
    if (r_m5_2 ? (r_38_5 < 1024ull) : 0u) { r_km_2 = r_38_5; goto l_std_41_2; }
    goto l_core_pf;
l_std_41_2:;
    st8((r_ix + (i64)(r_km_2)), r_47_2);
    u64 r_c4_3 = (r_km_2 + 1ull);
    st64(r_e1_2, r_c4_3);
    if (r_zn_2 == 0ull) goto l_core_ca;
    r_9w_2 = r_c4_3;
    r_uj_2 = r_zn_2;
    r_35_2 = r_62_2;
    goto l_arm_65_2;
l_core_en:;
    u8 r_sr_1 = core_fmt_formatter_Formatter_write_indented_bf264aed5fa78656(slot_5, r_xw_1, r_38_4);
    if (r_sr_1 == 0u) goto l_core_ca;
l_core_pf:;
    mv24(r_s4, slot_1);
    r_b2 = 0u;
    goto l_join_2k;
l_core_ca:;
    u8 r_1r = core_fmt_formatter_Formatter_write_piece_cd5e334430faecd3(slot_5, r_c4);
    mv24(r_s4, slot_1);
    if (!(r_1r == 0u)) { r_b2 = 0u; goto l_join_2k; }
    mv24(slot_1, r_s4);
    st32(r_s4, 32u);
    memset(r_uy, 0u, 12);
    st64(r_ky, 0xffffffffffffffffull);
    if (!(ld64(r_lp) == 0ull)) goto l_else_7o;
    r_e1_3 = (slot_5 + 1032);
    u64 r_38_6 = ld64(r_e1_3);
    if (!(r_38_6 > 1023ull)) { r_4x = r_38_6; goto l_std_vs; }
    u8 r_m5_3 = std_io_io_buffer_Buffer_flush(slot_5);
    u64 r_38_7 = ld64(r_e1_3);
    if (r_m5_3 ? (r_38_7 < 1024ull) : 0u) { r_4x = r_38_7; goto l_std_vs; }
    r_bu = 0u;
    goto l_core_pf_1;
l_std_vs:;
    st8((r_ix + (i64)(r_4x)), 10u);
    st64(r_e1_3, (r_4x + 1ull));
    r_bu = 1u;
    goto l_core_pf_1;
l_else_7o:;
    u8 r_9h = core_fmt_formatter_Formatter_write_indented_bf264aed5fa78656(slot_5, ((u8 *)g_static_7), 1ull);
    r_bu = (r_9h == 0u);
l_core_pf_1:;
    mv24(r_s4, slot_1);
    r_b2 = r_bu;
l_join_2k:;
    st32(slot_1, ld32(slot_5));
    memcpy((slot_1 + 4), r_ix, 1132);
    u8 r_vx = std_io_io_buffer_Buffer_flush(slot_1);
    if (!(u8)((u8)r_b2 & (u8)r_vx)) goto l_join_to;
    memset(slot_3, 0u, 64);
    r_u5 = 0u;
    r_mz = 0u;
    r_pi = 0u;
    r_gx = 0u;
    r_wb = 0u;
    r_8b = 0u;
    r_59 = 0ull;
    r_nl = 0ull;
    goto l_std_jl;
l_join_to:;
    if (!(ld8((slot_1 + 1040)) == 1u)) goto l_arm_or;
    u8 r_r5 = ld8((slot_1 + 1048));
    u8 r_dd = ld8((slot_1 + 1049));
    u8 r_sw = ld8((slot_1 + 1050));
    u8 r_dd_1 = ld8((slot_1 + 1051));
    u32 r_uq = ld32((slot_1 + 1052));
    u64 r_38_8 = ld64((slot_1 + 1056));
    u64 r_38_9 = ld64((slot_1 + 1064));
    mv64(slot_2, (slot_1 + 1072));
    r_jt = r_r5;
    r_qc = r_dd;
    r_yd = r_sw;
    r_x1 = r_dd_1;
    r_g6 = r_uq;
    r_qc_1 = r_38_8;
    r_bi = r_38_9;
    goto l_join_qx;
l_arm_or:;
    memset(slot_2, 46u, 64);
    r_jt = 2u;
    r_qc = 41u;
    r_yd = 15u;
    r_x1 = 0u;
    r_g6 = 0u;
    r_qc_1 = 0x657474616d726f66ull;
    r_bi = 0x2e726f7272652072ull;
l_join_qx:;
    mv64(slot_3, slot_2);
    r_u5 = 1u;
    r_mz = r_jt;
    r_pi = r_qc;
    r_gx = r_yd;
    r_wb = r_x1;
    r_8b = r_g6;
    r_59 = r_qc_1;
    r_nl = r_bi;
l_std_jl:;
    mv64(slot_6, slot_3);
    mv64(slot_7, slot_6);
    st8(a_1, r_u5);
    st8(away(a_1, 8ull), r_mz);
    st8(away(a_1, 9ull), r_pi);
    st8(away(a_1, 10ull), r_gx);
    st8(away(a_1, 11ull), r_wb);
    st32(away(a_1, 12ull), r_8b);
    st64(away(a_1, 16ull), r_59);
    st64(away(a_1, 24ull), r_nl);
    mv64(away(a_1, 32ull), slot_7);
    return;
}

/* core::fmt::formatter::Formatter::write_piece::<#27b95e09ebc76fa9> */
u8 core_fmt_formatter_Formatter_write_piece_27b95e09ebc76fa9(u8 *a_1, u8 *a_2)
{
    A(1) u8 slot_1[24];
    u64 r_10;
    u64 r_hc;
    u64 r_zp;
    u64 r_c0;
    u8 r_qb_1;
    u64 common_h4;
    u8 *t_5f;
    u64 r_pu;
    u8 *r_tr;
    u64 r_52_1;
    u8 r_m4;
    st32(away(a_1, 136ull), 32u);
    memset(away(a_1, 140ull), 0u, 12);
    st64(away(a_1, 152ull), 0xffffffffffffffffull);
    u64 r_52 = ld64(ldp(a_2));
    memset(slot_1, 0u, 24);
    if (r_52 > 99ull) { r_10 = 24ull; r_hc = r_52; goto l_join_rc; }
    r_zp = r_52;
    r_c0 = 24ull;
    goto l_after_6x;
l_join_rc:;
    u8 r_qb = (u8)(r_hc % 100ull);
    u8 *t_2b = away(slot_1, r_10);
    st8(away(t_2b, 0xffffffffffffffffull), (u8)((u8)(r_qb % 10u) | 48u));
    st8(away(t_2b, 0xfffffffffffffffeull), (u8)((u8)(r_qb / 10u) | 48u));
    u64 r_kj = (r_hc / 100ull);
    u64 r_50 = (r_10 + 0xfffffffffffffffeull);
    if (r_hc > 9999ull) { r_10 = r_50; r_hc = r_kj; goto l_join_rc; }
    r_zp = r_kj;
    r_c0 = r_50;
l_after_6x:;
    r_qb_1 = (u8)r_zp;
    if (!(r_zp > 9ull)) goto l_join_qo;
    u8 *t_2b_1 = away(slot_1, r_c0);
    st8(away(t_2b_1, 0xffffffffffffffffull), (u8)((u8)(r_qb_1 % 10u) | 48u));
    st8(away(t_2b_1, 0xfffffffffffffffeull), (u8)((u8)(r_qb_1 / 10u) | 48u));
    common_h4 = (r_c0 + 0xfffffffffffffffeull);
    goto l_core_f9;
l_join_qo:;
    u64 r_zn = (r_c0 + 0xffffffffffffffffull);
    st8((slot_1 + (i64)(r_zn)), (u8)(r_qb_1 | 48u));
    common_h4 = r_zn;
l_core_f9:;
    t_5f = away(slot_1, common_h4);
    st8(away(t_5f, 0xffffffffffffffffull), 45u);
    r_pu = (24ull - common_h4);
    if (!(ld64(away(a_1, 160ull)) == 0ull)) goto l_else_5d;
    if ((u8)(ld8(away(a_1, 128ull)) & 1)) { r_m4 = 1u; goto l_core_lh; }
    r_tr = away(a_1, 120ull);
    r_52_1 = ld64(r_tr);
    if (r_52_1 > 120ull) { r_m4 = 1u; goto l_core_lh; }
    if (r_pu > (120ull - r_52_1)) goto l_join_uo;
    memcpy_or_none(away(a_1, r_52_1), t_5f, r_pu);
    st64(r_tr, (r_52_1 + r_pu));
    r_m4 = 0u;
    goto l_core_lh;
l_join_uo:;
    core_fmt_inline_InlineText_cut_at_capacity_120(a_1, t_5f, r_pu);
    r_m4 = 1u;
    goto l_core_lh;
l_else_5d:;
    u8 r_zy = core_fmt_formatter_Formatter_write_indented_e28d62ad0fc89b16(a_1, t_5f, r_pu);
    r_m4 = r_zy;
l_core_lh:;
    return r_m4;
}

/* core::fmt::formatter::Formatter::write_indented::<#e28d62ad0fc89b16> */
NEVER COLD u8 core_fmt_formatter_Formatter_write_indented_e28d62ad0fc89b16(u8 *a_1, u8 *a_2, u64 a_3)
{
    u64 r_4q;
    u64 r_11;
    u64 r_36;
    u64 r_9y;
    u64 r_c4;
    u8 r_fk;
    if (a_3 == 0ull) { r_c4 = 0ull; goto l_after_xu; }
    r_4q = 0ull;
    r_11 = 0ull;
l_core_q2:;
    r_36 = (r_11 + 1ull);
    if (!(ld8((a_2 + (i64)(r_11))) == 10u)) { r_9y = r_4q; goto l_join_lk; }
    u8 r_4m = core_fmt_formatter_Formatter_write_indented_line_e28d6_00a95c6c(a_1, away(a_2, ((r_4q > r_36) ? 0ull : r_4q)), usub_sat64(r_36, r_4q), 1u);
    if ((u8)(r_4m & 1)) { r_fk = 1u; goto l_return_ri; }
    r_9y = r_36;
l_join_lk:;
    if (r_36 == a_3) { r_c4 = r_9y; goto l_after_xu; }
    r_4q = r_9y;
    r_11 = r_36;
    goto l_core_q2;
l_after_xu:;
    u8 r_sl = core_fmt_formatter_Formatter_write_indented_line_e28d6_00a95c6c(a_1, away(a_2, ((r_c4 > a_3) ? 0ull : r_c4)), usub_sat64(a_3, r_c4), 0u);
    r_fk = r_sl;
l_return_ri:;
    return r_fk;
}

/* core::fmt::formatter::Formatter::write_indented_line::<#e28d62ad0fc89b16> */
static u8 core_fmt_formatter_Formatter_write_indented_line_e28d6_00a95c6c(u8 *a_1, u8 *a_2, u64 a_3, u8 a_4)
{
    u8 *r_yg;
    u64 r_52;
    u8 *r_3m;
    u8 *r_tr;
    u64 r_zj;
    u64 r_52_1;
    u8 *r_tr_1;
    u64 r_52_2;
    u8 *r_8z;
    u64 r_31;
    u8 r_fk;
    if (a_3 == 0ull) { r_fk = 0u; goto l_return_ri; }
    r_yg = away(a_1, 168ull);
    if (!(u8)(ld8(r_yg) & 1)) goto l_arm_an;
    r_52 = ld64(away(a_1, 160ull));
    if (r_52 == 0ull) goto l_arm_an;
    r_3m = away(a_1, 128ull);
    r_tr = away(a_1, 120ull);
    r_zj = 0ull;
l_join_1c:;
    if ((u8)(ld8(r_3m) & 1)) { r_fk = 1u; goto l_return_ri; }
    r_52_1 = ld64(r_tr);
    if (r_52_1 > 120ull) { r_fk = 1u; goto l_return_ri; }
    if (r_52_1 > 116ull) goto l_join_8u;
    st32(away(a_1, r_52_1), 0x20202020u);
    st64(r_tr, (r_52_1 + 4ull));
    u64 r_36 = (r_zj + 1ull);
    if (r_36 == r_52) goto l_arm_an;
    r_zj = r_36;
    goto l_join_1c;
l_join_8u:;
    core_fmt_inline_InlineText_cut_at_capacity_120(a_1, ((u8 *)g_static_9), 4ull);
    r_fk = 1u;
    goto l_return_ri;
l_arm_an:;
    st8(r_yg, (u8)a_4);
    u8 r_ne = core_fmt_utf8_is_utf8(a_2, a_3);
    if (!r_ne) { r_fk = 1u; goto l_return_ri; }
    if ((u8)(ld8(away(a_1, 128ull)) & 1)) { r_fk = 1u; goto l_return_ri; }
    r_tr_1 = away(a_1, 120ull);
    r_52_2 = ld64(r_tr_1);
    if (r_52_2 > 120ull) { r_fk = 1u; goto l_return_ri; }
    if (a_3 > (120ull - r_52_2)) goto l_join_8t;
    r_8z = away(a_1, r_52_2);
    if (((u64)(uptr)r_8z - (u64)(uptr)a_2) < a_3) { r_31 = 0ull; goto l_join_sz; }
    memmove_or_none(r_8z, a_2, a_3);
    goto l_core_qk;
l_join_sz:;
    st8((r_8z + (i64)(r_31)), ld8((a_2 + (i64)(r_31))));
    u64 r_36_1 = (r_31 + 1ull);
    if (!(r_36_1 == a_3)) { r_31 = r_36_1; goto l_join_sz; }
l_core_qk:;
    st64(r_tr_1, (r_52_2 + a_3));
    r_fk = 0u;
    goto l_return_ri;
l_join_8t:;
    core_fmt_inline_InlineText_cut_at_capacity_120(a_1, a_2, a_3);
    r_fk = 1u;
l_return_ri:;
    return r_fk;
}

/* core::fmt::formatter::Formatter::write_piece::<#4802effef235a1ad> */
u8 core_fmt_formatter_Formatter_write_piece_4802effef235a1ad(u8 *a_1, u8 *a_2)
{
    u8 *r_mb;
    u64 r_qw;
    u8 *r_tr;
    u64 r_52;
    u8 *r_8z;
    u64 r_il;
    u8 r_fk;
    st32(away(a_1, 136ull), 32u);
    memset(away(a_1, 140ull), 0u, 12);
    st64(away(a_1, 152ull), 0xffffffffffffffffull);
    r_mb = ldp(a_2);
    r_qw = ld64((a_2 + 8));
    if (!(ld64(away(a_1, 160ull)) == 0ull)) goto l_else_hz;
    if ((u8)(ld8(away(a_1, 128ull)) & 1)) { r_fk = 1u; goto l_core_ri; }
    r_tr = away(a_1, 120ull);
    r_52 = ld64(r_tr);
    if (r_52 > 120ull) { r_fk = 1u; goto l_core_ri; }
    if (r_qw > (120ull - r_52)) goto l_join_qz;
    r_8z = away(a_1, r_52);
    if (((u64)(uptr)r_8z - (u64)(uptr)r_mb) < r_qw) { r_il = 0ull; goto l_join_fh; }
    memmove_or_none(r_8z, r_mb, r_qw);
    goto l_core_f7;
l_join_fh:;
    st8((r_8z + (i64)(r_il)), ld8((r_mb + (i64)(r_il))));
    u64 r_36 = (r_il + 1ull);
    if (!(r_36 == r_qw)) { r_il = r_36; goto l_join_fh; }
l_core_f7:;
    st64(r_tr, (r_52 + r_qw));
    r_fk = 0u;
    goto l_core_ri;
l_join_qz:;
    core_fmt_inline_InlineText_cut_at_capacity_120(a_1, r_mb, r_qw);
    r_fk = 1u;
    goto l_core_ri;
l_else_hz:;
    u8 r_2p = core_fmt_formatter_Formatter_write_indented_e28d62ad0fc89b16(a_1, r_mb, r_qw);
    r_fk = r_2p;
l_core_ri:;
    return r_fk;
}

/* core::fmt::inline::InlineText::cut_at_capacity::<=120> */
void core_fmt_inline_InlineText_cut_at_capacity_120(u8 *a_1, u8 *a_2, u64 a_3)
{
    A(8) u8 slot_1[24];
    u8 *r_tr;
    u64 r_52;
    u8 *spec_ty;
    u64 r_p7;
    u64 r_ml;
    u64 r_by;
    u64 common_4i;
    u8 *r_8z;
    u8 *r_qf;
    u64 common_92;
    u64 r_31;
    u64 common_ms;
    u64 storemerge_v5;
    u8 *r_h1;
    u64 r_8n;
    r_tr = away(a_1, 120ull);
    r_52 = ld64(r_tr);
    if (!(r_52 > 117ull)) goto l_else_cg;
    memset(slot_1, 0u, 24);
    core_str_utf8_from_utf8(slot_1, a_1, umin64(r_52, 120ull));
    u8 t_0c = (ld8(slot_1) == 0u);
    spec_ty = (t_0c ? ldp((slot_1 + 8)) : ((u8 *)g_static_294));
    u64 spec_vj = (t_0c ? ld64((slot_1 + 16)) : 0ull);
    if (spec_vj > 117ull) { r_p7 = 117ull; goto l_join_bi; }
    storemerge_v5 = spec_vj;
    goto l_join_x3;
l_join_bi:;
    if ((i8)ld8((spec_ty + (i64)(r_p7))) > (i8)191u) { storemerge_v5 = r_p7; goto l_join_x3; }
    u64 r_0f = (r_p7 + 0xffffffffffffffffull);
    if (r_0f == 0ull) { storemerge_v5 = 0ull; goto l_join_x3; }
    r_p7 = r_0f;
    goto l_join_bi;
l_else_cg:;
    r_ml = (117ull - r_52);
    if (!(a_3 > r_ml)) { common_4i = a_3; goto l_core_sr; }
    if (r_52 == 117ull) goto l_core_ba;
    r_by = r_ml;
l_join_da:;
    if ((i8)ld8((a_2 + (i64)(r_by))) > (i8)191u) { common_4i = r_by; goto l_core_sr; }
    u64 r_zn = (r_by + 0xffffffffffffffffull);
    if (!(r_zn == 0ull)) { r_by = r_zn; goto l_join_da; }
l_core_ba:;
    r_qf = away(a_1, r_52);
    common_92 = 0ull;
    goto l_apart_su;
l_core_sr:;
    r_8z = away(a_1, r_52);
    if (((u64)(uptr)r_8z - (u64)(uptr)a_2) < common_4i) { r_31 = 0ull; goto l_join_sz; }
    r_qf = r_8z;
    common_92 = common_4i;
l_apart_su:;
    memmove_or_none(r_qf, a_2, common_92);
    common_ms = common_92;
    goto l_core_79;
l_join_sz:;
    st8((r_8z + (i64)(r_31)), ld8((a_2 + (i64)(r_31))));
    u64 r_36 = (r_31 + 1ull);
    if (r_36 == common_4i) { common_ms = common_4i; goto l_core_79; }
    r_31 = r_36;
    goto l_join_sz;
l_core_79:;
    storemerge_v5 = (common_ms + r_52);
l_join_x3:;
    st64(r_tr, storemerge_v5);
    r_h1 = away(a_1, storemerge_v5);
    if (((u64)(uptr)r_h1 - (u64)(uptr)(((u8 *)g_static_126) + 16)) < 3ull) { r_8n = 0ull; goto l_join_pr; }
    mv3(r_h1, (((u8 *)g_static_126) + 16));
    goto l_core_96;
l_join_pr:;
    st8((r_h1 + (i64)(r_8n)), ld8(((((u8 *)g_static_126) + 16) + (i64)(r_8n))));
    u64 r_c4 = (r_8n + 1ull);
    if (!(r_c4 == 3ull)) { r_8n = r_c4; goto l_join_pr; }
l_core_96:;
    st64(r_tr, (storemerge_v5 + 3ull));
    st8(away(a_1, 128ull), 1u);
    return;
}

/* core::fmt::formatter::Formatter::write_piece::<#9d414b38dae91653> */
u8 core_fmt_formatter_Formatter_write_piece_9d414b38dae91653(u8 *a_1, u8 *a_2)
{
    A(1) u8 slot_1[24];
    u64 r_10;
    u64 r_hc;
    u64 r_zp;
    u64 r_c0;
    u8 r_qb_1;
    u64 common_h4;
    u8 *t_5f;
    u64 r_pu;
    u8 *r_tr;
    u64 r_52;
    u8 r_m4;
    st32(away(a_1, 136ull), 32u);
    memset(away(a_1, 140ull), 0u, 12);
    st64(away(a_1, 152ull), 0xffffffffffffffffull);
    u32 r_yf = ld32(ldp(a_2));
    u64 r_24 = (u64)r_yf;
    memset(slot_1, 0u, 24);
    if (r_yf > 99u) { r_10 = 24ull; r_hc = r_24; goto l_join_rc; }
    r_zp = r_24;
    r_c0 = 24ull;
    goto l_after_6x;
l_join_rc:;
    u8 r_qb = (u8)(r_hc % 100ull);
    u8 *t_2b = away(slot_1, r_10);
    st8(away(t_2b, 0xffffffffffffffffull), (u8)((u8)(r_qb % 10u) | 48u));
    st8(away(t_2b, 0xfffffffffffffffeull), (u8)((u8)(r_qb / 10u) | 48u));
    u64 r_kj = (r_hc / 100ull);
    u64 r_50 = (r_10 + 0xfffffffffffffffeull);
    if (r_hc > 9999ull) { r_10 = r_50; r_hc = r_kj; goto l_join_rc; }
    r_zp = r_kj;
    r_c0 = r_50;
l_after_6x:;
    r_qb_1 = (u8)r_zp;
    if (!(r_zp > 9ull)) goto l_join_qo;
    u8 *t_2b_1 = away(slot_1, r_c0);
    st8(away(t_2b_1, 0xffffffffffffffffull), (u8)((u8)(r_qb_1 % 10u) | 48u));
    st8(away(t_2b_1, 0xfffffffffffffffeull), (u8)((u8)(r_qb_1 / 10u) | 48u));
    common_h4 = (r_c0 + 0xfffffffffffffffeull);
    goto l_core_f9;
l_join_qo:;
    u64 r_zn = (r_c0 + 0xffffffffffffffffull);
    st8((slot_1 + (i64)(r_zn)), (u8)(r_qb_1 | 48u));
    common_h4 = r_zn;
l_core_f9:;
    t_5f = away(slot_1, common_h4);
    st8(away(t_5f, 0xffffffffffffffffull), 45u);
    r_pu = (24ull - common_h4);
    if (!(ld64(away(a_1, 160ull)) == 0ull)) goto l_else_5d;
    if ((u8)(ld8(away(a_1, 128ull)) & 1)) { r_m4 = 1u; goto l_core_lh; }
    r_tr = away(a_1, 120ull);
    r_52 = ld64(r_tr);
    if (r_52 > 120ull) { r_m4 = 1u; goto l_core_lh; }
    if (r_pu > (120ull - r_52)) goto l_join_uo;
    memcpy_or_none(away(a_1, r_52), t_5f, r_pu);
    st64(r_tr, (r_52 + r_pu));
    r_m4 = 0u;
    goto l_core_lh;
l_join_uo:;
    core_fmt_inline_InlineText_cut_at_capacity_120(a_1, t_5f, r_pu);
    r_m4 = 1u;
    goto l_core_lh;
l_else_5d:;
    u8 r_zy = core_fmt_formatter_Formatter_write_indented_e28d62ad0fc89b16(a_1, t_5f, r_pu);
    r_m4 = r_zy;
l_core_lh:;
    return r_m4;
}

/* core::fmt::formatter::Formatter::write_piece::<#50509cbadb0dc36c> */
u8 core_fmt_formatter_Formatter_write_piece_50509cbadb0dc36c(u8 *a_1, u8 *a_2)
{
    A(1) u8 slot_1[24];
    u64 r_10;
    u64 r_hc;
    u64 r_zp;
    u64 r_c0;
    u8 r_qb_1;
    u64 common_h4;
    u8 *t_5f;
    u64 r_pu;
    u8 *r_tr;
    u64 r_52_1;
    u8 r_m4;
    st32(away(a_1, 136ull), 32u);
    memset(away(a_1, 140ull), 0u, 12);
    st64(away(a_1, 152ull), 0xffffffffffffffffull);
    u64 r_52 = ld64(ldp(a_2));
    memset(slot_1, 0u, 24);
    if (r_52 > 99ull) { r_10 = 24ull; r_hc = r_52; goto l_join_rc; }
    r_zp = r_52;
    r_c0 = 24ull;
    goto l_after_6x;
l_join_rc:;
    u8 r_qb = (u8)(r_hc % 100ull);
    u8 *t_2b = away(slot_1, r_10);
    st8(away(t_2b, 0xffffffffffffffffull), (u8)((u8)(r_qb % 10u) | 48u));
    st8(away(t_2b, 0xfffffffffffffffeull), (u8)((u8)(r_qb / 10u) | 48u));
    u64 r_kj = (r_hc / 100ull);
    u64 r_50 = (r_10 + 0xfffffffffffffffeull);
    if (r_hc > 9999ull) { r_10 = r_50; r_hc = r_kj; goto l_join_rc; }
    r_zp = r_kj;
    r_c0 = r_50;
l_after_6x:;
    r_qb_1 = (u8)r_zp;
    if (!(r_zp > 9ull)) goto l_join_qo;
    u8 *t_2b_1 = away(slot_1, r_c0);
    st8(away(t_2b_1, 0xffffffffffffffffull), (u8)((u8)(r_qb_1 % 10u) | 48u));
    st8(away(t_2b_1, 0xfffffffffffffffeull), (u8)((u8)(r_qb_1 / 10u) | 48u));
    common_h4 = (r_c0 + 0xfffffffffffffffeull);
    goto l_core_f9;
l_join_qo:;
    u64 r_zn = (r_c0 + 0xffffffffffffffffull);
    st8((slot_1 + (i64)(r_zn)), (u8)(r_qb_1 | 48u));
    common_h4 = r_zn;
l_core_f9:;
    t_5f = away(slot_1, common_h4);
    st8(away(t_5f, 0xffffffffffffffffull), 45u);
    r_pu = (24ull - common_h4);
    if (!(ld64(away(a_1, 160ull)) == 0ull)) goto l_else_5d;
    if ((u8)(ld8(away(a_1, 128ull)) & 1)) { r_m4 = 1u; goto l_core_lh; }
    r_tr = away(a_1, 120ull);
    r_52_1 = ld64(r_tr);
    if (r_52_1 > 120ull) { r_m4 = 1u; goto l_core_lh; }
    if (r_pu > (120ull - r_52_1)) goto l_join_uo;
    memcpy_or_none(away(a_1, r_52_1), t_5f, r_pu);
    st64(r_tr, (r_52_1 + r_pu));
    r_m4 = 0u;
    goto l_core_lh;
l_join_uo:;
    core_fmt_inline_InlineText_cut_at_capacity_120(a_1, t_5f, r_pu);
    r_m4 = 1u;
    goto l_core_lh;
l_else_5d:;
    u8 r_zy = core_fmt_formatter_Formatter_write_indented_e28d62ad0fc89b16(a_1, t_5f, r_pu);
    r_m4 = r_zy;
l_core_lh:;
    return r_m4;
}

/* std_io::io::LibcRuntimeEprint::eprintln::<#3fcc4dc1eb5f1358> */
void std_io_io_LibcRuntimeEprint_eprintln_3fcc4dc1eb5f1358(u8 *a_1, u8 *a_2)
{
    A(8) u8 slot_1[1136];
    A(1) u8 slot_2[64];
    A(8) u8 slot_3[64];
    A(8) u8 slot_4[1176];
    A(8) u8 slot_5[64];
    A(8) u8 slot_6[64];
    u8 *r_mb;
    u64 r_qw;
    u8 *r_rv;
    u64 r_qw_1;
    u8 *r_rv_1;
    u64 r_qw_2;
    u8 *r_rv_2;
    u8 *r_ix;
    u8 *r_s4;
    u8 *r_uy;
    u8 *r_ky;
    u8 *r_lp;
    u8 *r_e1;
    u64 r_9w;
    u64 r_uj;
    u8 *r_35;
    u8 *r_62;
    u64 r_zn;
    u8 r_47;
    u64 r_km;
    u64 r_c4;
    u64 r_5a;
    u8 *r_e1_1;
    u64 r_9w_1;
    u64 r_uj_1;
    u8 *r_35_1;
    u8 *r_62_1;
    u64 r_zn_1;
    u8 r_47_1;
    u64 r_km_1;
    u8 *r_e1_2;
    u64 r_9w_2;
    u64 r_uj_2;
    u8 *r_35_2;
    u8 *r_62_2;
    u64 r_zn_2;
    u8 r_47_2;
    u64 r_km_2;
    u8 *r_rv_3;
    u64 r_qw_3;
    u8 *r_e1_3;
    u64 r_9w_3;
    u64 r_uj_3;
    u8 *r_35_3;
    u8 *r_62_3;
    u64 r_zn_3;
    u8 r_47_3;
    u64 r_km_3;
    u8 *r_e1_4;
    u64 r_4x;
    u8 r_bu;
    u8 r_b2;
    u8 r_jt;
    u8 r_qc;
    u8 r_yd;
    u8 r_x1;
    u32 r_g6;
    u64 r_qc_1;
    u64 r_bi;
    u8 r_u5;
    u8 r_mz;
    u8 r_pi;
    u8 r_gx;
    u8 r_wb;
    u32 r_8b;
    u64 r_59;
    u64 r_nl;
    r_mb = ldp(a_2);
    r_qw = ld64((a_2 + 8));
    r_rv = ldp((a_2 + 16));
    r_qw_1 = ld64((a_2 + 24));
    r_rv_1 = ldp((a_2 + 32));
    r_qw_2 = ld64((a_2 + 40));
    r_rv_2 = ldp((a_2 + 48));
    memset(slot_6, 0u, 64);
    memset(slot_5, 0u, 64);
    memset(slot_3, 0u, 64);
    st32(slot_4, 2u);
    r_ix = (slot_4 + 4);
    memset(r_ix, 0u, 1132);
    r_s4 = (slot_4 + 1136);
    st32(r_s4, 32u);
    r_uy = (slot_4 + 1140);
    r_ky = (slot_4 + 1152);
    memset(r_uy, 0u, 12);
    st64(r_ky, 0xffffffffffffffffull);
    r_lp = (slot_4 + 1160);
    memset(r_lp, 0u, 16);
    mv24(slot_1, r_s4);
    st32(r_s4, 32u);
    memset(r_uy, 0u, 12);
    st64(r_ky, 0xffffffffffffffffull);
    if (r_qw == 0ull) { r_5a = 0ull; goto l_then_7z; }
    r_e1 = (slot_4 + 1032);
    r_9w = 0ull;
    r_uj = r_qw;
    r_35 = r_mb;
l_arm_65:;
    r_62 = away(r_35, 1ull);
    r_zn = (r_uj + 0xffffffffffffffffull);
    r_47 = ld8(r_35);
    if (!(r_9w > 1023ull)) { r_km = r_9w; goto l_std_41; }
    u8 r_m5 = std_io_io_buffer_Buffer_flush(slot_4);
    u64 r_38 = ld64(r_e1);
    if (r_m5 ? (r_38 < 1024ull) : 0u) { r_km = r_38; goto l_std_41; }
    goto l_core_pf;
l_std_41:;
    st8((r_ix + (i64)(r_km)), r_47);
    r_c4 = (r_km + 1ull);
    st64(r_e1, r_c4);
    if (!(r_zn == 0ull)) { r_9w = r_c4; r_uj = r_zn; r_35 = r_62; goto l_arm_65; }
    u8 t_ts = (ld64(r_lp) == 0ull);
    st32(r_s4, 32u);
    memset(r_uy, 0u, 12);
    st64(r_ky, 0xffffffffffffffffull);
    if (t_ts) { r_5a = r_c4; goto l_then_7z; }
    goto l_core_rq;
l_then_7z:;
    if (!(r_qw_1 == 0ull)) goto l_arm_yd;
    st32(r_s4, 32u);
    memset(r_uy, 0u, 12);
    st64(r_ky, 0xffffffffffffffffull);
    goto l_then_7z_1;
l_arm_yd:;
    r_e1_1 = (slot_4 + 1032);
    r_9w_1 = r_5a;
    r_uj_1 = r_qw_1;
    r_35_1 = r_rv;
l_arm_65_1:;
    r_62_1 = away(r_35_1, 1ull);
    r_zn_1 = (r_uj_1 + 0xffffffffffffffffull);
    r_47_1 = ld8(r_35_1);
    if (!(r_9w_1 > 1023ull)) { r_km_1 = r_9w_1; goto l_std_41_1; }
    u8 r_m5_1 = std_io_io_buffer_Buffer_flush(slot_4);
    u64 r_38_1 = ld64(r_e1_1);
    if (r_m5_1 ? (r_38_1 < 1024ull) : 0u) { r_km_1 = r_38_1; goto l_std_41_1; }
    goto l_core_pf;
l_std_41_1:;
    st8((r_ix + (i64)(r_km_1)), r_47_1);
    u64 r_c4_1 = (r_km_1 + 1ull);
    st64(r_e1_1, r_c4_1);
    if (r_zn_1 == 0ull) goto l_arm_g6;
    r_9w_1 = r_c4_1;
    r_uj_1 = r_zn_1;
    r_35_1 = r_62_1;
    goto l_arm_65_1;
l_core_rq:;
    u8 r_sr = core_fmt_formatter_Formatter_write_indented_bf264aed5fa78656(slot_4, r_rv, r_qw_1);
    if (!(r_sr == 0u)) goto l_core_pf;
l_arm_g6:;
    u64 r_38_2 = ld64(r_lp);
    st32(r_s4, 32u);
    memset(r_uy, 0u, 12);
    st64(r_ky, 0xffffffffffffffffull);
    if (!(r_38_2 == 0ull)) goto l_core_rq_1;
l_then_7z_1:;
    if (r_qw_2 == 0ull) goto l_arm_2r;
    r_e1_2 = (slot_4 + 1032);
    r_9w_2 = ld64(r_e1_2);
    r_uj_2 = r_qw_2;
    r_35_2 = r_rv_1;
l_arm_65_2:;
    r_62_2 = away(r_35_2, 1ull);
    r_zn_2 = (r_uj_2 + 0xffffffffffffffffull);
    r_47_2 = ld8(r_35_2);
    if (!(r_9w_2 > 1023ull)) { r_km_2 = r_9w_2; goto l_std_41_2; }
    u8 r_m5_2 = std_io_io_buffer_Buffer_flush(slot_4);
    u64 r_38_3 = ld64(r_e1_2);
    if (r_m5_2 ? (r_38_3 < 1024ull) : 0u) { r_km_2 = r_38_3; goto l_std_41_2; }
    goto l_core_pf;
l_std_41_2:;
    st8((r_ix + (i64)(r_km_2)), r_47_2);
    u64 r_c4_2 = (r_km_2 + 1ull);
    st64(r_e1_2, r_c4_2);
    if (r_zn_2 == 0ull) goto l_arm_2r;
    r_9w_2 = r_c4_2;
    r_uj_2 = r_zn_2;
    r_35_2 = r_62_2;
    goto l_arm_65_2;
l_core_rq_1:;
    u8 r_sr_1 = core_fmt_formatter_Formatter_write_indented_bf264aed5fa78656(slot_4, r_rv_1, r_qw_2);
    if (!(r_sr_1 == 0u)) goto l_core_pf;
l_arm_2r:;
    st32(r_s4, 32u);
    memset(r_uy, 0u, 12);
    st64(r_ky, 0xffffffffffffffffull);
    r_rv_3 = ldp(r_rv_2);
    r_qw_3 = ld64((r_rv_2 + 8));
    if (!(ld64(r_lp) == 0ull)) goto l_core_id;
    if (r_qw_3 == 0ull) goto l_core_3b;
    r_e1_3 = (slot_4 + 1032);
    r_9w_3 = ld64(r_e1_3);
    r_uj_3 = r_qw_3;
    r_35_3 = r_rv_3;
l_arm_65_3:;
    r_62_3 = away(r_35_3, 1ull);
    r_zn_3 = (r_uj_3 + 0xffffffffffffffffull);
    r_47_3 = ld8(r_35_3);
    if (!(r_9w_3 > 1023ull)) { r_km_3 = r_9w_3; goto l_std_41_3; }
    u8 r_m5_3 = std_io_io_buffer_Buffer_flush(slot_4);
    u64 r_38_4 = ld64(r_e1_3);
    if (r_m5_3 ? (r_38_4 < 1024ull) : 0u) { r_km_3 = r_38_4; goto l_std_41_3; }
    goto l_core_pf;
l_std_41_3:;
    st8((r_ix + (i64)(r_km_3)), r_47_3);
    u64 r_c4_3 = (r_km_3 + 1ull);
    st64(r_e1_3, r_c4_3);
    if (r_zn_3 == 0ull) goto l_core_3b;
    r_9w_3 = r_c4_3;
    r_uj_3 = r_zn_3;
    r_35_3 = r_62_3;
    goto l_arm_65_3;
l_core_pf:;
    mv24(r_s4, slot_1);
    r_b2 = 0u;
    goto l_join_2k;
l_core_3b:;
    mv24(r_s4, slot_1);
    goto l_arm_9c;
l_core_id:;
    u8 r_sr_2 = core_fmt_formatter_Formatter_write_indented_bf264aed5fa78656(slot_4, r_rv_3, r_qw_3);
    mv24(r_s4, slot_1);
    if (!(r_sr_2 == 0u)) { r_b2 = 0u; goto l_join_2k; }
l_arm_9c:;
    mv24(slot_1, r_s4);
    st32(r_s4, 32u);
    memset(r_uy, 0u, 12);
    st64(r_ky, 0xffffffffffffffffull);
    if (!(ld64(r_lp) == 0ull)) goto l_else_7o;
    r_e1_4 = (slot_4 + 1032);
    u64 r_38_5 = ld64(r_e1_4);
    if (!(r_38_5 > 1023ull)) { r_4x = r_38_5; goto l_std_vs; }
    u8 r_m5_4 = std_io_io_buffer_Buffer_flush(slot_4);
    u64 r_38_6 = ld64(r_e1_4);
    if (r_m5_4 ? (r_38_6 < 1024ull) : 0u) { r_4x = r_38_6; goto l_std_vs; }
    r_bu = 0u;
    goto l_core_pf_1;
l_std_vs:;
    st8((r_ix + (i64)(r_4x)), 10u);
    st64(r_e1_4, (r_4x + 1ull));
    r_bu = 1u;
    goto l_core_pf_1;
l_else_7o:;
    u8 r_9h = core_fmt_formatter_Formatter_write_indented_bf264aed5fa78656(slot_4, ((u8 *)g_static_7), 1ull);
    r_bu = (r_9h == 0u);
l_core_pf_1:;
    mv24(r_s4, slot_1);
    r_b2 = r_bu;
l_join_2k:;
    st32(slot_1, ld32(slot_4));
    memcpy((slot_1 + 4), r_ix, 1132);
    u8 r_vx = std_io_io_buffer_Buffer_flush(slot_1);
    if (!(u8)((u8)r_b2 & (u8)r_vx)) goto l_join_to;
    memset(slot_3, 0u, 64);
    r_u5 = 0u;
    r_mz = 0u;
    r_pi = 0u;
    r_gx = 0u;
    r_wb = 0u;
    r_8b = 0u;
    r_59 = 0ull;
    r_nl = 0ull;
    goto l_std_jl;
l_join_to:;
    if (!(ld8((slot_1 + 1040)) == 1u)) goto l_arm_or;
    u8 r_r5 = ld8((slot_1 + 1048));
    u8 r_dd = ld8((slot_1 + 1049));
    u8 r_sw = ld8((slot_1 + 1050));
    u8 r_dd_1 = ld8((slot_1 + 1051));
    u32 r_uq = ld32((slot_1 + 1052));
    u64 r_38_7 = ld64((slot_1 + 1056));
    u64 r_38_8 = ld64((slot_1 + 1064));
    mv64(slot_2, (slot_1 + 1072));
    r_jt = r_r5;
    r_qc = r_dd;
    r_yd = r_sw;
    r_x1 = r_dd_1;
    r_g6 = r_uq;
    r_qc_1 = r_38_7;
    r_bi = r_38_8;
    goto l_join_qx;
l_arm_or:;
    memset(slot_2, 46u, 64);
    r_jt = 2u;
    r_qc = 41u;
    r_yd = 15u;
    r_x1 = 0u;
    r_g6 = 0u;
    r_qc_1 = 0x657474616d726f66ull;
    r_bi = 0x2e726f7272652072ull;
l_join_qx:;
    mv64(slot_3, slot_2);
    r_u5 = 1u;
    r_mz = r_jt;
    r_pi = r_qc;
    r_gx = r_yd;
    r_wb = r_x1;
    r_8b = r_g6;
    r_59 = r_qc_1;
    r_nl = r_bi;
l_std_jl:;
    mv64(slot_5, slot_3);
    mv64(slot_6, slot_5);
    st8(a_1, r_u5);
    st8(away(a_1, 8ull), r_mz);
    st8(away(a_1, 9ull), r_pi);
    st8(away(a_1, 10ull), r_gx);
    st8(away(a_1, 11ull), r_wb);
    st32(away(a_1, 12ull), r_8b);
    st64(away(a_1, 16ull), r_59);
    st64(away(a_1, 24ull), r_nl);
    mv64(away(a_1, 32ull), slot_6);
    return;
}

/* std_io::io::LibcRuntimeEprint::eprint::<#a60bf8f0966fe87f> */
void std_io_io_LibcRuntimeEprint_eprint_a60bf8f0966fe87f(u8 *a_1, u8 *a_2)
{
    A(8) u8 slot_1[1136];
    A(1) u8 slot_2[64];
    A(8) u8 slot_3[64];
    A(8) u8 slot_4[112];
    A(8) u8 slot_5[1176];
    A(8) u8 slot_6[64];
    A(8) u8 slot_7[64];
    u8 *r_ix;
    u8 *r_s4;
    u8 *r_uy;
    u8 *r_ky;
    u8 *r_lp;
    u8 *r_zd;
    u8 *r_lk;
    u8 *r_a8;
    u64 r_38;
    u8 *r_e1;
    u64 r_9w;
    u64 r_uj;
    u8 *r_35;
    u8 *r_62;
    u64 r_zn;
    u8 r_47;
    u64 r_km;
    u8 *r_xw;
    u64 r_38_2;
    u8 *r_e1_1;
    u64 r_9w_1;
    u64 r_uj_1;
    u8 *r_35_1;
    u8 *r_62_1;
    u64 r_zn_1;
    u8 r_47_1;
    u64 r_km_1;
    u8 *r_5q;
    u8 *r_1e;
    u8 *r_k5;
    u8 *r_xw_1;
    u64 r_38_4;
    u8 *r_e1_2;
    u64 r_9w_2;
    u64 r_uj_2;
    u8 *r_35_2;
    u8 *r_62_2;
    u64 r_zn_2;
    u8 r_47_2;
    u64 r_km_2;
    u8 *r_xw_2;
    u64 r_38_6;
    u8 *r_e1_3;
    u64 r_9w_3;
    u64 r_uj_3;
    u8 *r_35_3;
    u8 *r_62_3;
    u64 r_zn_3;
    u8 r_47_3;
    u64 r_km_3;
    u8 *r_xw_3;
    u64 r_38_8;
    u8 *r_e1_4;
    u64 r_9w_4;
    u64 r_uj_4;
    u8 *r_35_4;
    u8 *r_62_4;
    u64 r_zn_4;
    u8 r_47_4;
    u64 r_km_4;
    u8 r_bu;
    u8 r_b2;
    u8 r_jt;
    u8 r_qc;
    u8 r_yd;
    u8 r_x1;
    u32 r_g6;
    u64 r_qc_1;
    u64 r_bi;
    u8 r_u5;
    u8 r_mz;
    u8 r_pi;
    u8 r_gx;
    u8 r_wb;
    u32 r_8b;
    u64 r_59;
    u64 r_nl;
    memset(slot_7, 0u, 64);
    memcpy(slot_4, a_2, 112);
    memset(slot_6, 0u, 64);
    memset(slot_3, 0u, 64);
    st32(slot_5, 2u);
    r_ix = (slot_5 + 4);
    memset(r_ix, 0u, 1132);
    r_s4 = (slot_5 + 1136);
    st32(r_s4, 32u);
    r_uy = (slot_5 + 1140);
    r_ky = (slot_5 + 1152);
    memset(r_uy, 0u, 12);
    st64(r_ky, 0xffffffffffffffffull);
    r_lp = (slot_5 + 1160);
    memset(r_lp, 0u, 16);
    mv24(slot_1, r_s4);
    r_zd = (slot_4 + 16);
    r_lk = (slot_4 + 24);
    r_a8 = (slot_4 + 40);
    st32(r_s4, 32u);
    memset(r_uy, 0u, 12);
    st64(r_ky, 0xffffffffffffffffull);
    r_38 = ld64((slot_4 + 8));
    if (r_38 == 0ull) goto l_core_yi;
    r_e1 = (slot_5 + 1032);
    r_9w = 0ull;
    r_uj = r_38;
    r_35 = ldp(slot_4);
l_arm_65:;
    r_62 = away(r_35, 1ull);
    r_zn = (r_uj + 0xffffffffffffffffull);
    r_47 = ld8(r_35);
    if (!(r_9w > 1023ull)) { r_km = r_9w; goto l_std_41; }
    u8 r_m5 = std_io_io_buffer_Buffer_flush(slot_5);
    u64 r_38_1 = ld64(r_e1);
    if (r_m5 ? (r_38_1 < 1024ull) : 0u) { r_km = r_38_1; goto l_std_41; }
    goto l_core_pf;
l_std_41:;
    st8((r_ix + (i64)(r_km)), r_47);
    u64 r_c4 = (r_km + 1ull);
    st64(r_e1, r_c4);
    if (!(r_zn == 0ull)) { r_9w = r_c4; r_uj = r_zn; r_35 = r_62; goto l_arm_65; }
l_core_yi:;
    u8 r_od = core_fmt_formatter_Formatter_write_piece_ad6cde96c05b3f7d(slot_5, r_zd);
    if (!(r_od == 0u)) goto l_core_pf;
    st32(r_s4, 32u);
    memset(r_uy, 0u, 12);
    st64(r_ky, 0xffffffffffffffffull);
    r_xw = ldp(r_lk);
    r_38_2 = ld64((slot_4 + 32));
    if (!(ld64(r_lp) == 0ull)) goto l_core_en;
    if (r_38_2 == 0ull) goto l_core_f9;
    r_e1_1 = (slot_5 + 1032);
    r_9w_1 = ld64(r_e1_1);
    r_uj_1 = r_38_2;
    r_35_1 = r_xw;
l_arm_65_1:;
    r_62_1 = away(r_35_1, 1ull);
    r_zn_1 = (r_uj_1 + 0xffffffffffffffffull);
    r_47_1 = ld8(r_35_1);
    if (!(r_9w_1 > 1023ull)) { r_km_1 = r_9w_1; goto l_std_41_1; }
    u8 r_m5_1 = std_io_io_buffer_Buffer_flush(slot_5);
    u64 r_38_3 = ld64(r_e1_1);
    if (r_m5_1 ? (r_38_3 < 1024ull) : 0u) { r_km_1 = r_38_3; goto l_std_41_1; }
    goto l_core_pf;
l_std_41_1:;
    st8((r_ix + (i64)(r_km_1)), r_47_1);
    u64 r_c4_1 = (r_km_1 + 1ull);
    st64(r_e1_1, r_c4_1);
    if (r_zn_1 == 0ull) goto l_core_f9;
    r_9w_1 = r_c4_1;
    r_uj_1 = r_zn_1;
    r_35_1 = r_62_1;
    goto l_arm_65_1;
l_core_en:;
    u8 r_sr = core_fmt_formatter_Formatter_write_indented_bf264aed5fa78656(slot_5, r_xw, r_38_2);
    if (!(r_sr == 0u)) goto l_core_pf;
l_core_f9:;
    u8 r_od_1 = core_fmt_formatter_Formatter_write_piece_ad6cde96c05b3f7d(slot_5, r_a8);
    r_5q = (slot_4 + 64);
    r_1e = (slot_4 + 72);
    r_k5 = (slot_4 + 88);
    if (!(r_od_1 == 0u)) goto l_core_pf;
    st32(r_s4, 32u);
    memset(r_uy, 0u, 12);
    st64(r_ky, 0xffffffffffffffffull);
    r_xw_1 = ldp((slot_4 + 48));
    r_38_4 = ld64((slot_4 + 56));
    if (!(ld64(r_lp) == 0ull)) goto l_core_en_1;
    if (r_38_4 == 0ull) goto l_core_yi_1;
    r_e1_2 = (slot_5 + 1032);
    r_9w_2 = ld64(r_e1_2);
    r_uj_2 = r_38_4;
    r_35_2 = r_xw_1;
l_arm_65_2:;
    r_62_2 = away(r_35_2, 1ull);
    r_zn_2 = (r_uj_2 + 0xffffffffffffffffull);
    r_47_2 = ld8(r_35_2);
    if (!(r_9w_2 > 1023ull)) { r_km_2 = r_9w_2; goto l_std_41_2; }
    u8 r_m5_2 = std_io_io_buffer_Buffer_flush(slot_5);
    u64 r_38_5 = ld64(r_e1_2);
    if (r_m5_2 ? (r_38_5 < 1024ull) : 0u) { r_km_2 = r_38_5; goto l_std_41_2; }
    goto l_core_pf;
l_std_41_2:;
    st8((r_ix + (i64)(r_km_2)), r_47_2);
    u64 r_c4_2 = (r_km_2 + 1ull);
    st64(r_e1_2, r_c4_2);
    if (r_zn_2 == 0ull) goto l_core_yi_1;
    r_9w_2 = r_c4_2;
    r_uj_2 = r_zn_2;
    r_35_2 = r_62_2;
    goto l_arm_65_2;
l_core_en_1:;
    u8 r_sr_1 = core_fmt_formatter_Formatter_write_indented_bf264aed5fa78656(slot_5, r_xw_1, r_38_4);
    if (!(r_sr_1 == 0u)) goto l_core_pf;
l_core_yi_1:;
    u8 r_od_2 = core_fmt_formatter_Formatter_write_piece_ad6cde96c05b3f7d(slot_5, r_5q);
    if (!(r_od_2 == 0u)) goto l_core_pf;
    st32(r_s4, 32u);
    memset(r_uy, 0u, 12);
    st64(r_ky, 0xffffffffffffffffull);
    r_xw_2 = ldp(r_1e);
    r_38_6 = ld64((slot_4 + 80));
    if (!(ld64(r_lp) == 0ull)) goto l_core_en_2;
    if (r_38_6 == 0ull) goto l_core_yi_2;
    r_e1_3 = (slot_5 + 1032);
    r_9w_3 = ld64(r_e1_3);
    r_uj_3 = r_38_6;
    r_35_3 = r_xw_2;
l_arm_65_3:;
    r_62_3 = away(r_35_3, 1ull);
    r_zn_3 = (r_uj_3 + 0xffffffffffffffffull);
    r_47_3 = ld8(r_35_3);
    if (!(r_9w_3 > 1023ull)) { r_km_3 = r_9w_3; goto l_std_41_3; }
    u8 r_m5_3 = std_io_io_buffer_Buffer_flush(slot_5);
    u64 r_38_7 = ld64(r_e1_3);
    if (r_m5_3 ? (r_38_7 < 1024ull) : 0u) { r_km_3 = r_38_7; goto l_std_41_3; }
    goto l_core_pf;
l_std_41_3:;
    st8((r_ix + (i64)(r_km_3)), r_47_3);
    u64 r_c4_3 = (r_km_3 + 1ull);
    st64(r_e1_3, r_c4_3);
    if (r_zn_3 == 0ull) goto l_core_yi_2;
    r_9w_3 = r_c4_3;
    r_uj_3 = r_zn_3;
    r_35_3 = r_62_3;
    goto l_arm_65_3;
l_core_en_2:;
    u8 r_sr_2 = core_fmt_formatter_Formatter_write_indented_bf264aed5fa78656(slot_5, r_xw_2, r_38_6);
    if (!(r_sr_2 == 0u)) goto l_core_pf;
l_core_yi_2:;
    u8 r_od_3 = core_fmt_formatter_Formatter_write_piece_ad6cde96c05b3f7d(slot_5, r_k5);
    if (!(r_od_3 == 0u)) goto l_core_pf;
    st32(r_s4, 32u);
    memset(r_uy, 0u, 12);
    st64(r_ky, 0xffffffffffffffffull);
    r_xw_3 = ldp((slot_4 + 96));
    r_38_8 = ld64((slot_4 + 104));
    if (!(ld64(r_lp) == 0ull)) goto l_core_id;
    if (r_38_8 == 0ull) goto l_core_3b;
    r_e1_4 = (slot_5 + 1032);
    r_9w_4 = ld64(r_e1_4);
    r_uj_4 = r_38_8;
    r_35_4 = r_xw_3;
l_arm_65_4:;
    r_62_4 = away(r_35_4, 1ull);
    r_zn_4 = (r_uj_4 + 0xffffffffffffffffull);
    r_47_4 = ld8(r_35_4);
    if (!(r_9w_4 > 1023ull)) { r_km_4 = r_9w_4; goto l_std_41_4; }
    u8 r_m5_4 = std_io_io_buffer_Buffer_flush(slot_5);
    u64 r_38_9 = ld64(r_e1_4);
    if (r_m5_4 ? (r_38_9 < 1024ull) : 0u) { r_km_4 = r_38_9; goto l_std_41_4; }
    goto l_core_pf;
l_std_41_4:;
    st8((r_ix + (i64)(r_km_4)), r_47_4);
    u64 r_c4_4 = (r_km_4 + 1ull);
    st64(r_e1_4, r_c4_4);
    if (r_zn_4 == 0ull) goto l_core_3b;
    r_9w_4 = r_c4_4;
    r_uj_4 = r_zn_4;
    r_35_4 = r_62_4;
    goto l_arm_65_4;
l_core_pf:;
    mv24(r_s4, slot_1);
    r_b2 = 0u;
    goto l_join_2k;
l_core_3b:;
    mv24(r_s4, slot_1);
    goto l_arm_9c;
l_core_id:;
    u8 r_sr_3 = core_fmt_formatter_Formatter_write_indented_bf264aed5fa78656(slot_5, r_xw_3, r_38_8);
    mv24(r_s4, slot_1);
    if (!(r_sr_3 == 0u)) { r_b2 = 0u; goto l_join_2k; }
l_arm_9c:;
    mv24(slot_1, r_s4);
    st32(r_s4, 32u);
    memset(r_uy, 0u, 12);
    st64(r_ky, 0xffffffffffffffffull);
    if (ld64(r_lp) == 0ull) { r_bu = 1u; goto l_core_pf_1; }
    u8 r_6f = core_fmt_formatter_Formatter_write_indented_bf264aed5fa78656(slot_5, ((u8 *)g_static_294), 0ull);
    r_bu = (r_6f == 0u);
l_core_pf_1:;
    mv24(r_s4, slot_1);
    r_b2 = r_bu;
l_join_2k:;
    st32(slot_1, ld32(slot_5));
    memcpy((slot_1 + 4), r_ix, 1132);
    u8 r_vx = std_io_io_buffer_Buffer_flush(slot_1);
    if (!(u8)((u8)r_b2 & (u8)r_vx)) goto l_join_to;
    memset(slot_3, 0u, 64);
    r_u5 = 0u;
    r_mz = 0u;
    r_pi = 0u;
    r_gx = 0u;
    r_wb = 0u;
    r_8b = 0u;
    r_59 = 0ull;
    r_nl = 0ull;
    goto l_std_jl;
l_join_to:;
    if (!(ld8((slot_1 + 1040)) == 1u)) goto l_arm_or;
    u8 r_r5 = ld8((slot_1 + 1048));
    u8 r_dd = ld8((slot_1 + 1049));
    u8 r_sw = ld8((slot_1 + 1050));
    u8 r_dd_1 = ld8((slot_1 + 1051));
    u32 r_uq = ld32((slot_1 + 1052));
    u64 r_38_10 = ld64((slot_1 + 1056));
    u64 r_38_11 = ld64((slot_1 + 1064));
    mv64(slot_2, (slot_1 + 1072));
    r_jt = r_r5;
    r_qc = r_dd;
    r_yd = r_sw;
    r_x1 = r_dd_1;
    r_g6 = r_uq;
    r_qc_1 = r_38_10;
    r_bi = r_38_11;
    goto l_join_qx;
l_arm_or:;
    memset(slot_2, 46u, 64);
    r_jt = 2u;
    r_qc = 41u;
    r_yd = 15u;
    r_x1 = 0u;
    r_g6 = 0u;
    r_qc_1 = 0x657474616d726f66ull;
    r_bi = 0x2e726f7272652072ull;
l_join_qx:;
    mv64(slot_3, slot_2);
    r_u5 = 1u;
    r_mz = r_jt;
    r_pi = r_qc;
    r_gx = r_yd;
    r_wb = r_x1;
    r_8b = r_g6;
    r_59 = r_qc_1;
    r_nl = r_bi;
l_std_jl:;
    mv64(slot_6, slot_3);
    mv64(slot_7, slot_6);
    st8(a_1, r_u5);
    st8(away(a_1, 8ull), r_mz);
    st8(away(a_1, 9ull), r_pi);
    st8(away(a_1, 10ull), r_gx);
    st8(away(a_1, 11ull), r_wb);
    st32(away(a_1, 12ull), r_8b);
    st64(away(a_1, 16ull), r_59);
    st64(away(a_1, 24ull), r_nl);
    mv64(away(a_1, 32ull), slot_7);
    return;
}

/* core::fmt::formatter::Formatter::write_piece::<#ad6cde96c05b3f7d> */
u8 core_fmt_formatter_Formatter_write_piece_ad6cde96c05b3f7d(u8 *a_1, u8 *a_2)
{
    A(1) u8 slot_1[24];
    u64 r_10;
    u64 r_hc;
    u64 r_zp;
    u64 r_c0;
    u8 r_qb_1;
    u64 common_h4;
    u8 *t_5f;
    u64 r_pu;
    u8 *r_ym;
    u8 *r_1x;
    u64 r_9w;
    u64 r_uj;
    u8 *r_35;
    u8 *r_62;
    u64 r_zn_1;
    u8 r_47;
    u64 r_km;
    u8 r_m4;
    st32(away(a_1, 1136ull), 32u);
    memset(away(a_1, 1140ull), 0u, 12);
    st64(away(a_1, 1152ull), 0xffffffffffffffffull);
    u64 r_52 = ld64(ldp(a_2));
    memset(slot_1, 0u, 24);
    if (r_52 > 99ull) { r_10 = 24ull; r_hc = r_52; goto l_join_rc; }
    r_zp = r_52;
    r_c0 = 24ull;
    goto l_after_6x;
l_join_rc:;
    u8 r_qb = (u8)(r_hc % 100ull);
    u8 *t_2b = away(slot_1, r_10);
    st8(away(t_2b, 0xffffffffffffffffull), (u8)((u8)(r_qb % 10u) | 48u));
    st8(away(t_2b, 0xfffffffffffffffeull), (u8)((u8)(r_qb / 10u) | 48u));
    u64 r_kj = (r_hc / 100ull);
    u64 r_50 = (r_10 + 0xfffffffffffffffeull);
    if (r_hc > 9999ull) { r_10 = r_50; r_hc = r_kj; goto l_join_rc; }
    r_zp = r_kj;
    r_c0 = r_50;
l_after_6x:;
    r_qb_1 = (u8)r_zp;
    if (!(r_zp > 9ull)) goto l_join_qo;
    u8 *t_2b_1 = away(slot_1, r_c0);
    st8(away(t_2b_1, 0xffffffffffffffffull), (u8)((u8)(r_qb_1 % 10u) | 48u));
    st8(away(t_2b_1, 0xfffffffffffffffeull), (u8)((u8)(r_qb_1 / 10u) | 48u));
    common_h4 = (r_c0 + 0xfffffffffffffffeull);
    goto l_core_f9;
l_join_qo:;
    u64 r_zn = (r_c0 + 0xffffffffffffffffull);
    st8((slot_1 + (i64)(r_zn)), (u8)(r_qb_1 | 48u));
    common_h4 = r_zn;
l_core_f9:;
    t_5f = away(slot_1, common_h4);
    st8(away(t_5f, 0xffffffffffffffffull), 45u);
    r_pu = (24ull - common_h4);
    if (!(ld64(away(a_1, 1160ull)) == 0ull)) goto l_else_qe;
    if (common_h4 == 24ull) { r_m4 = 0u; goto l_core_lh; }
    r_ym = away(a_1, 1032ull);
    r_1x = away(a_1, 4ull);
    r_9w = ld64(r_ym);
    r_uj = r_pu;
    r_35 = t_5f;
l_arm_65:;
    r_62 = away(r_35, 1ull);
    r_zn_1 = (r_uj + 0xffffffffffffffffull);
    r_47 = ld8(r_35);
    if (!(r_9w > 1023ull)) { r_km = r_9w; goto l_std_41; }
    u8 r_09 = std_io_io_buffer_Buffer_flush(a_1);
    if (!r_09) { r_m4 = 1u; goto l_core_lh; }
    u64 r_38 = ld64(r_ym);
    if (r_38 > 1023ull) { r_m4 = 1u; goto l_core_lh; }
    r_km = r_38;
l_std_41:;
    st8((r_1x + (i64)(r_km)), r_47);
    u64 r_c4 = (r_km + 1ull);
    st64(r_ym, r_c4);
    if (r_zn_1 == 0ull) { r_m4 = 0u; goto l_core_lh; }
    r_9w = r_c4;
    r_uj = r_zn_1;
    r_35 = r_62;
    goto l_arm_65;
l_else_qe:;
    u8 r_vo = core_fmt_formatter_Formatter_write_indented_bf264aed5fa78656(a_1, t_5f, r_pu);
    r_m4 = r_vo;
l_core_lh:;
    return r_m4;
}

/* std_io::io::LibcRuntimeEprint::eprintln::<#ca48b51c48df6db8> */
void std_io_io_LibcRuntimeEprint_eprintln_ca48b51c48df6db8(u8 *a_1, u8 *a_2)
{
    A(8) u8 slot_1[1136];
    A(1) u8 slot_2[64];
    A(8) u8 slot_3[64];
    A(8) u8 slot_4[128];
    A(8) u8 slot_5[1176];
    A(8) u8 slot_6[64];
    A(8) u8 slot_7[64];
    u8 *r_ix;
    u8 *r_s4;
    u8 *r_uy;
    u8 *r_ky;
    u8 *r_lp;
    u8 *r_zd;
    u8 *r_89;
    u8 *r_c4;
    u64 r_38;
    u8 *r_e1;
    u64 r_9w;
    u64 r_uj;
    u8 *r_35;
    u8 *r_62;
    u64 r_zn;
    u8 r_47;
    u64 r_km;
    u64 r_c4_1;
    u8 *r_xw;
    u64 r_38_2;
    u64 r_5a;
    u64 r_2l;
    u8 *r_9a;
    u8 *r_e1_1;
    u64 r_9w_1;
    u64 r_uj_1;
    u8 *r_35_1;
    u8 *r_62_1;
    u64 r_zn_1;
    u8 r_47_1;
    u64 r_km_1;
    u8 *r_xw_1;
    u64 r_38_4;
    u64 r_5a_1;
    u8 *r_2l_1;
    u8 *r_e1_2;
    u64 r_9w_2;
    u64 r_uj_2;
    u8 *r_35_2;
    u8 *r_62_2;
    u64 r_zn_2;
    u8 r_47_2;
    u64 r_km_2;
    u8 *r_xw_2;
    u64 r_38_6;
    u8 *r_e1_3;
    u64 r_9w_3;
    u64 r_uj_3;
    u8 *r_35_3;
    u8 *r_62_3;
    u64 r_zn_3;
    u8 r_47_3;
    u64 r_km_3;
    u8 *r_i5;
    u8 *r_m5_4;
    u8 *r_km_4;
    u8 *r_0s;
    u8 *r_rv;
    u64 r_38_8;
    u8 *r_e1_4;
    u64 r_9w_4;
    u64 r_uj_4;
    u8 *r_35_4;
    u8 *r_62_4;
    u64 r_zn_4;
    u8 r_47_4;
    u64 r_km_5;
    u8 *r_rv_1;
    u64 r_38_10;
    u8 *r_e1_5;
    u64 r_9w_5;
    u64 r_uj_5;
    u8 *r_35_5;
    u8 *r_62_5;
    u64 r_zn_5;
    u8 r_47_5;
    u64 r_km_6;
    u8 *r_ar;
    u8 *r_rv_2;
    u64 r_38_12;
    u8 *r_e1_6;
    u64 r_9w_6;
    u64 r_uj_6;
    u8 *r_35_6;
    u8 *r_62_6;
    u64 r_zn_6;
    u8 r_47_6;
    u64 r_km_7;
    u8 *r_e1_7;
    u64 r_4x;
    u8 r_bu;
    u8 r_b2;
    u8 r_jt;
    u8 r_qc;
    u8 r_yd;
    u8 r_x1;
    u32 r_g6;
    u64 r_qc_1;
    u64 r_bi;
    u8 r_u5;
    u8 r_mz;
    u8 r_pi;
    u8 r_gx;
    u8 r_wb;
    u32 r_8b;
    u64 r_59;
    u64 r_nl;
    memset(slot_7, 0u, 64);
    memcpy(slot_4, a_2, 128);
    memset(slot_6, 0u, 64);
    memset(slot_3, 0u, 64);
    st32(slot_5, 2u);
    r_ix = (slot_5 + 4);
    memset(r_ix, 0u, 1132);
    r_s4 = (slot_5 + 1136);
    st32(r_s4, 32u);
    r_uy = (slot_5 + 1140);
    r_ky = (slot_5 + 1152);
    memset(r_uy, 0u, 12);
    st64(r_ky, 0xffffffffffffffffull);
    r_lp = (slot_5 + 1160);
    memset(r_lp, 0u, 16);
    mv24(slot_1, r_s4);
    r_zd = (slot_4 + 16);
    r_89 = (slot_4 + 32);
    r_c4 = (slot_4 + 48);
    st32(r_s4, 32u);
    memset(r_uy, 0u, 12);
    st64(r_ky, 0xffffffffffffffffull);
    r_38 = ld64((slot_4 + 8));
    if (!(r_38 == 0ull)) goto l_arm_lg;
    r_5a = 0ull;
    r_2l = ld64((slot_4 + 24));
    r_9a = ldp(r_zd);
    goto l_then_7z;
l_arm_lg:;
    r_e1 = (slot_5 + 1032);
    r_9w = 0ull;
    r_uj = r_38;
    r_35 = ldp(slot_4);
l_arm_65:;
    r_62 = away(r_35, 1ull);
    r_zn = (r_uj + 0xffffffffffffffffull);
    r_47 = ld8(r_35);
    if (!(r_9w > 1023ull)) { r_km = r_9w; goto l_std_41; }
    u8 r_m5 = std_io_io_buffer_Buffer_flush(slot_5);
    u64 r_38_1 = ld64(r_e1);
    if (r_m5 ? (r_38_1 < 1024ull) : 0u) { r_km = r_38_1; goto l_std_41; }
    goto l_core_pf;
l_std_41:;
    st8((r_ix + (i64)(r_km)), r_47);
    r_c4_1 = (r_km + 1ull);
    st64(r_e1, r_c4_1);
    if (!(r_zn == 0ull)) { r_9w = r_c4_1; r_uj = r_zn; r_35 = r_62; goto l_arm_65; }
    u8 t_ts = (ld64(r_lp) == 0ull);
    st32(r_s4, 32u);
    memset(r_uy, 0u, 12);
    st64(r_ky, 0xffffffffffffffffull);
    r_xw = ldp(r_zd);
    r_38_2 = ld64((slot_4 + 24));
    if (t_ts) { r_5a = r_c4_1; r_2l = r_38_2; r_9a = r_xw; goto l_then_7z; }
    goto l_core_rq;
l_then_7z:;
    if (!(r_2l == 0ull)) goto l_arm_yd;
    st32(r_s4, 32u);
    memset(r_uy, 0u, 12);
    st64(r_ky, 0xffffffffffffffffull);
    r_5a_1 = ld64((slot_4 + 40));
    r_2l_1 = ldp(r_89);
    goto l_then_7z_1;
l_arm_yd:;
    r_e1_1 = (slot_5 + 1032);
    r_9w_1 = r_5a;
    r_uj_1 = r_2l;
    r_35_1 = r_9a;
l_arm_65_1:;
    r_62_1 = away(r_35_1, 1ull);
    r_zn_1 = (r_uj_1 + 0xffffffffffffffffull);
    r_47_1 = ld8(r_35_1);
    if (!(r_9w_1 > 1023ull)) { r_km_1 = r_9w_1; goto l_std_41_1; }
    u8 r_m5_1 = std_io_io_buffer_Buffer_flush(slot_5);
    u64 r_38_3 = ld64(r_e1_1);
    if (r_m5_1 ? (r_38_3 < 1024ull) : 0u) { r_km_1 = r_38_3; goto l_std_41_1; }
    goto l_core_pf;
l_std_41_1:;
    st8((r_ix + (i64)(r_km_1)), r_47_1);
    u64 r_c4_2 = (r_km_1 + 1ull);
    st64(r_e1_1, r_c4_2);
    if (r_zn_1 == 0ull) goto l_arm_21;
    r_9w_1 = r_c4_2;
    r_uj_1 = r_zn_1;
    r_35_1 = r_62_1;
    goto l_arm_65_1;
l_core_rq:;
    u8 r_sr = core_fmt_formatter_Formatter_write_indented_bf264aed5fa78656(slot_5, r_xw, r_38_2);
    if (!(r_sr == 0u)) goto l_core_pf;
l_arm_21:;
    u8 t_ts_1 = (ld64(r_lp) == 0ull);
    st32(r_s4, 32u);
    memset(r_uy, 0u, 12);
    st64(r_ky, 0xffffffffffffffffull);
    r_xw_1 = ldp(r_89);
    r_38_4 = ld64((slot_4 + 40));
    if (t_ts_1) { r_5a_1 = r_38_4; r_2l_1 = r_xw_1; goto l_then_7z_1; }
    goto l_core_rq_1;
l_then_7z_1:;
    if (r_5a_1 == 0ull) goto l_arm_8o;
    r_e1_2 = (slot_5 + 1032);
    r_9w_2 = ld64(r_e1_2);
    r_uj_2 = r_5a_1;
    r_35_2 = r_2l_1;
l_arm_65_2:;
    r_62_2 = away(r_35_2, 1ull);
    r_zn_2 = (r_uj_2 + 0xffffffffffffffffull);
    r_47_2 = ld8(r_35_2);
    if (!(r_9w_2 > 1023ull)) { r_km_2 = r_9w_2; goto l_std_41_2; }
    u8 r_m5_2 = std_io_io_buffer_Buffer_flush(slot_5);
    u64 r_38_5 = ld64(r_e1_2);
    if (r_m5_2 ? (r_38_5 < 1024ull) : 0u) { r_km_2 = r_38_5; goto l_std_41_2; }
    goto l_core_pf;
l_std_41_2:;
    st8((r_ix + (i64)(r_km_2)), r_47_2);
    u64 r_c4_3 = (r_km_2 + 1ull);
    st64(r_e1_2, r_c4_3);
    if (r_zn_2 == 0ull) goto l_arm_8o;
    r_9w_2 = r_c4_3;
    r_uj_2 = r_zn_2;
    r_35_2 = r_62_2;
    goto l_arm_65_2;
l_core_rq_1:;
    u8 r_sr_1 = core_fmt_formatter_Formatter_write_indented_bf264aed5fa78656(slot_5, r_xw_1, r_38_4);
    if (!(r_sr_1 == 0u)) goto l_core_pf;
l_arm_8o:;
    st32(r_s4, 32u);
    memset(r_uy, 0u, 12);
    st64(r_ky, 0xffffffffffffffffull);
    r_xw_2 = ldp(r_c4);
    r_38_6 = ld64((slot_4 + 56));
    if (!(ld64(r_lp) == 0ull)) goto l_core_t6;
    if (r_38_6 == 0ull) goto l_core_zz;
    r_e1_3 = (slot_5 + 1032);
    r_9w_3 = ld64(r_e1_3);
    r_uj_3 = r_38_6;
    r_35_3 = r_xw_2;
l_arm_65_3:;
    r_62_3 = away(r_35_3, 1ull);
    r_zn_3 = (r_uj_3 + 0xffffffffffffffffull);
    r_47_3 = ld8(r_35_3);
    if (!(r_9w_3 > 1023ull)) { r_km_3 = r_9w_3; goto l_std_41_3; }
    u8 r_m5_3 = std_io_io_buffer_Buffer_flush(slot_5);
    u64 r_38_7 = ld64(r_e1_3);
    if (r_m5_3 ? (r_38_7 < 1024ull) : 0u) { r_km_3 = r_38_7; goto l_std_41_3; }
    goto l_core_pf;
l_std_41_3:;
    st8((r_ix + (i64)(r_km_3)), r_47_3);
    u64 r_c4_4 = (r_km_3 + 1ull);
    st64(r_e1_3, r_c4_4);
    if (!(r_zn_3 == 0ull)) { r_9w_3 = r_c4_4; r_uj_3 = r_zn_3; r_35_3 = r_62_3; goto l_arm_65_3; }
l_core_zz:;
    r_i5 = (slot_4 + 96);
    r_m5_4 = (slot_4 + 88);
    r_km_4 = (slot_4 + 72);
    r_0s = (slot_4 + 64);
    goto l_core_yi;
l_core_t6:;
    u8 r_sr_2 = core_fmt_formatter_Formatter_write_indented_bf264aed5fa78656(slot_5, r_xw_2, r_38_6);
    if (r_sr_2 == 0u) { r_i5 = (slot_4 + 96); r_m5_4 = (slot_4 + 88); r_km_4 = (slot_4 + 72); r_0s = (slot_4 + 64); goto l_core_yi; }
    goto l_core_pf;
l_core_yi:;
    u8 r_od = core_fmt_formatter_Formatter_write_piece_ad6cde96c05b3f7d(slot_5, r_0s);
    if (!(r_od == 0u)) goto l_core_pf;
    st32(r_s4, 32u);
    memset(r_uy, 0u, 12);
    st64(r_ky, 0xffffffffffffffffull);
    r_rv = ldp(r_km_4);
    r_38_8 = ld64((slot_4 + 80));
    if (!(ld64(r_lp) == 0ull)) goto l_core_en;
    if (r_38_8 == 0ull) goto l_core_yi_1;
    r_e1_4 = (slot_5 + 1032);
    r_9w_4 = ld64(r_e1_4);
    r_uj_4 = r_38_8;
    r_35_4 = r_rv;
l_arm_65_4:;
    r_62_4 = away(r_35_4, 1ull);
    r_zn_4 = (r_uj_4 + 0xffffffffffffffffull);
    r_47_4 = ld8(r_35_4);
    if (!(r_9w_4 > 1023ull)) { r_km_5 = r_9w_4; goto l_std_41_4; }
    u8 r_m5_5 = std_io_io_buffer_Buffer_flush(slot_5);
    u64 r_38_9 = ld64(r_e1_4);
    if (r_m5_5 ? (r_38_9 < 1024ull) : 0u) { r_km_5 = r_38_9; goto l_std_41_4; }
    goto l_core_pf;
l_std_41_4:;
    st8((r_ix + (i64)(r_km_5)), r_47_4);
    u64 r_c4_5 = (r_km_5 + 1ull);
    st64(r_e1_4, r_c4_5);
    if (r_zn_4 == 0ull) goto l_core_yi_1;
    r_9w_4 = r_c4_5;
    r_uj_4 = r_zn_4;
    r_35_4 = r_62_4;
    goto l_arm_65_4;
l_core_en:;
    u8 r_sr_3 = core_fmt_formatter_Formatter_write_indented_bf264aed5fa78656(slot_5, r_rv, r_38_8);
    if (!(r_sr_3 == 0u)) goto l_core_pf;
l_core_yi_1:;
    u8 r_od_1 = core_fmt_formatter_Formatter_write_piece_ad6cde96c05b3f7d(slot_5, r_m5_4);
    if (!(r_od_1 == 0u)) goto l_core_pf;
    st32(r_s4, 32u);
    memset(r_uy, 0u, 12);
    st64(r_ky, 0xffffffffffffffffull);
    r_rv_1 = ldp(r_i5);
    r_38_10 = ld64((slot_4 + 104));
    if (!(ld64(r_lp) == 0ull)) goto l_core_ct;
    if (r_38_10 == 0ull) goto l_core_wb;
    r_e1_5 = (slot_5 + 1032);
    r_9w_5 = ld64(r_e1_5);
    r_uj_5 = r_38_10;
    r_35_5 = r_rv_1;
l_arm_65_5:;
    r_62_5 = away(r_35_5, 1ull);
    r_zn_5 = (r_uj_5 + 0xffffffffffffffffull);
    r_47_5 = ld8(r_35_5);
    if (!(r_9w_5 > 1023ull)) { r_km_6 = r_9w_5; goto l_std_41_5; }
    u8 r_m5_6 = std_io_io_buffer_Buffer_flush(slot_5);
    u64 r_38_11 = ld64(r_e1_5);
    if (r_m5_6 ? (r_38_11 < 1024ull) : 0u) { r_km_6 = r_38_11; goto l_std_41_5; }
    goto l_core_pf;
l_std_41_5:;
    st8((r_ix + (i64)(r_km_6)), r_47_5);
    u64 r_c4_6 = (r_km_6 + 1ull);
    st64(r_e1_5, r_c4_6);
    if (!(r_zn_5 == 0ull)) { r_9w_5 = r_c4_6; r_uj_5 = r_zn_5; r_35_5 = r_62_5; goto l_arm_65_5; }
l_core_wb:;
    r_ar = (slot_4 + 112);
    goto l_arm_2r;
l_core_ct:;
    u8 r_sr_4 = core_fmt_formatter_Formatter_write_indented_bf264aed5fa78656(slot_5, r_rv_1, r_38_10);
    if (r_sr_4 == 0u) { r_ar = (slot_4 + 112); goto l_arm_2r; }
    goto l_core_pf;
l_arm_2r:;
    st32(r_s4, 32u);
    memset(r_uy, 0u, 12);
    st64(r_ky, 0xffffffffffffffffull);
    r_rv_2 = ldp(r_ar);
    r_38_12 = ld64((slot_4 + 120));
    if (!(ld64(r_lp) == 0ull)) goto l_core_id;
    if (r_38_12 == 0ull) goto l_core_3b;
    r_e1_6 = (slot_5 + 1032);
    r_9w_6 = ld64(r_e1_6);
    r_uj_6 = r_38_12;
    r_35_6 = r_rv_2;
l_arm_65_6:;
    r_62_6 = away(r_35_6, 1ull);
    r_zn_6 = (r_uj_6 + 0xffffffffffffffffull);
    r_47_6 = ld8(r_35_6);
    if (!(r_9w_6 > 1023ull)) { r_km_7 = r_9w_6; goto l_std_41_6; }
    u8 r_m5_7 = std_io_io_buffer_Buffer_flush(slot_5);
    u64 r_38_13 = ld64(r_e1_6);
    if (r_m5_7 ? (r_38_13 < 1024ull) : 0u) { r_km_7 = r_38_13; goto l_std_41_6; }
    goto l_core_pf;
l_std_41_6:;
    st8((r_ix + (i64)(r_km_7)), r_47_6);
    u64 r_c4_7 = (r_km_7 + 1ull);
    st64(r_e1_6, r_c4_7);
    if (r_zn_6 == 0ull) goto l_core_3b;
    r_9w_6 = r_c4_7;
    r_uj_6 = r_zn_6;
    r_35_6 = r_62_6;
    goto l_arm_65_6;
l_core_pf:;
    mv24(r_s4, slot_1);
    r_b2 = 0u;
    goto l_join_2k;
l_core_3b:;
    mv24(r_s4, slot_1);
    goto l_arm_9c;
l_core_id:;
    u8 r_sr_5 = core_fmt_formatter_Formatter_write_indented_bf264aed5fa78656(slot_5, r_rv_2, r_38_12);
    mv24(r_s4, slot_1);
    if (!(r_sr_5 == 0u)) { r_b2 = 0u; goto l_join_2k; }
l_arm_9c:;
    mv24(slot_1, r_s4);
    st32(r_s4, 32u);
    memset(r_uy, 0u, 12);
    st64(r_ky, 0xffffffffffffffffull);
    if (!(ld64(r_lp) == 0ull)) goto l_else_7o;
    r_e1_7 = (slot_5 + 1032);
    u64 r_38_14 = ld64(r_e1_7);
    if (!(r_38_14 > 1023ull)) { r_4x = r_38_14; goto l_std_vs; }
    u8 r_m5_8 = std_io_io_buffer_Buffer_flush(slot_5);
    u64 r_38_15 = ld64(r_e1_7);
    if (r_m5_8 ? (r_38_15 < 1024ull) : 0u) { r_4x = r_38_15; goto l_std_vs; }
    r_bu = 0u;
    goto l_core_pf_1;
l_std_vs:;
    st8((r_ix + (i64)(r_4x)), 10u);
    st64(r_e1_7, (r_4x + 1ull));
    r_bu = 1u;
    goto l_core_pf_1;
l_else_7o:;
    u8 r_9h = core_fmt_formatter_Formatter_write_indented_bf264aed5fa78656(slot_5, ((u8 *)g_static_7), 1ull);
    r_bu = (r_9h == 0u);
l_core_pf_1:;
    mv24(r_s4, slot_1);
    r_b2 = r_bu;
l_join_2k:;
    st32(slot_1, ld32(slot_5));
    memcpy((slot_1 + 4), r_ix, 1132);
    u8 r_vx = std_io_io_buffer_Buffer_flush(slot_1);
    if (!(u8)((u8)r_b2 & (u8)r_vx)) goto l_join_to;
    memset(slot_3, 0u, 64);
    r_u5 = 0u;
    r_mz = 0u;
    r_pi = 0u;
    r_gx = 0u;
    r_wb = 0u;
    r_8b = 0u;
    r_59 = 0ull;
    r_nl = 0ull;
    goto l_std_jl;
l_join_to:;
    if (!(ld8((slot_1 + 1040)) == 1u)) goto l_arm_or;
    u8 r_r5 = ld8((slot_1 + 1048));
    u8 r_dd = ld8((slot_1 + 1049));
    u8 r_sw = ld8((slot_1 + 1050));
    u8 r_dd_1 = ld8((slot_1 + 1051));
    u32 r_uq = ld32((slot_1 + 1052));
    u64 r_38_16 = ld64((slot_1 + 1056));
    u64 r_38_17 = ld64((slot_1 + 1064));
    mv64(slot_2, (slot_1 + 1072));
    r_jt = r_r5;
    r_qc = r_dd;
    r_yd = r_sw;
    r_x1 = r_dd_1;
    r_g6 = r_uq;
    r_qc_1 = r_38_16;
    r_bi = r_38_17;
    goto l_join_qx;
l_arm_or:;
    memset(slot_2, 46u, 64);
    r_jt = 2u;
    r_qc = 41u;
    r_yd = 15u;
    r_x1 = 0u;
    r_g6 = 0u;
    r_qc_1 = 0x657474616d726f66ull;
    r_bi = 0x2e726f7272652072ull;
l_join_qx:;
    mv64(slot_3, slot_2);
    r_u5 = 1u;
    r_mz = r_jt;
    r_pi = r_qc;
    r_gx = r_yd;
    r_wb = r_x1;
    r_8b = r_g6;
    r_59 = r_qc_1;
    r_nl = r_bi;
l_std_jl:;
    mv64(slot_6, slot_3);
    mv64(slot_7, slot_6);
    st8(a_1, r_u5);
    st8(away(a_1, 8ull), r_mz);
    st8(away(a_1, 9ull), r_pi);
    st8(away(a_1, 10ull), r_gx);
    st8(away(a_1, 11ull), r_wb);
    st32(away(a_1, 12ull), r_8b);
    st64(away(a_1, 16ull), r_59);
    st64(away(a_1, 24ull), r_nl);
    mv64(away(a_1, 32ull), slot_7);
    return;
}

/* std_io::io::LibcRuntimeEprint::eprintln::<#d512b0887f7dcccf> */
void std_io_io_LibcRuntimeEprint_eprintln_d512b0887f7dcccf(u8 *a_1, u8 *a_2)
{
    A(8) u8 slot_1[1136];
    A(1) u8 slot_2[64];
    A(8) u8 slot_3[64];
    A(8) u8 slot_4[40];
    A(8) u8 slot_5[1176];
    A(8) u8 slot_6[64];
    A(8) u8 slot_7[64];
    u8 *r_ix;
    u8 *r_s4;
    u8 *r_uy;
    u8 *r_ky;
    u8 *r_lp;
    u8 *r_zd;
    u8 *r_lk;
    u64 r_38;
    u8 *r_e1;
    u64 r_9w;
    u64 r_uj;
    u8 *r_35;
    u8 *r_62;
    u64 r_zn;
    u8 r_47;
    u64 r_km;
    u8 *r_xw;
    u64 r_38_2;
    u8 *r_e1_1;
    u64 r_9w_1;
    u64 r_uj_1;
    u8 *r_35_1;
    u8 *r_62_1;
    u64 r_zn_1;
    u8 r_47_1;
    u64 r_km_1;
    u8 *r_e1_2;
    u64 r_4x;
    u8 r_bu;
    u8 r_b2;
    u8 r_jt;
    u8 r_qc;
    u8 r_yd;
    u8 r_x1;
    u32 r_g6;
    u64 r_qc_1;
    u64 r_bi;
    u8 r_u5;
    u8 r_mz;
    u8 r_pi;
    u8 r_gx;
    u8 r_wb;
    u32 r_8b;
    u64 r_59;
    u64 r_nl;
    memset(slot_7, 0u, 64);
    mv40(slot_4, a_2);
    memset(slot_6, 0u, 64);
    memset(slot_3, 0u, 64);
    st32(slot_5, 2u);
    r_ix = (slot_5 + 4);
    memset(r_ix, 0u, 1132);
    r_s4 = (slot_5 + 1136);
    st32(r_s4, 32u);
    r_uy = (slot_5 + 1140);
    r_ky = (slot_5 + 1152);
    memset(r_uy, 0u, 12);
    st64(r_ky, 0xffffffffffffffffull);
    r_lp = (slot_5 + 1160);
    memset(r_lp, 0u, 16);
    mv24(slot_1, r_s4);
    r_zd = (slot_4 + 16);
    r_lk = (slot_4 + 24);
    st32(r_s4, 32u);
    memset(r_uy, 0u, 12);
    st64(r_ky, 0xffffffffffffffffull);
    r_38 = ld64((slot_4 + 8));
    if (r_38 == 0ull) goto l_core_yi;
    r_e1 = (slot_5 + 1032);
    r_9w = 0ull;
    r_uj = r_38;
    r_35 = ldp(slot_4);
l_arm_65:;
    r_62 = away(r_35, 1ull);
    r_zn = (r_uj + 0xffffffffffffffffull);
    r_47 = ld8(r_35);
    if (!(r_9w > 1023ull)) { r_km = r_9w; goto l_std_41; }
    u8 r_m5 = std_io_io_buffer_Buffer_flush(slot_5);
    u64 r_38_1 = ld64(r_e1);
    if (r_m5 ? (r_38_1 < 1024ull) : 0u) { r_km = r_38_1; goto l_std_41; }
    goto l_core_pf;
l_std_41:;
    st8((r_ix + (i64)(r_km)), r_47);
    u64 r_c4 = (r_km + 1ull);
    st64(r_e1, r_c4);
    if (!(r_zn == 0ull)) { r_9w = r_c4; r_uj = r_zn; r_35 = r_62; goto l_arm_65; }
l_core_yi:;
    u8 r_od = core_fmt_formatter_Formatter_write_piece_ad6cde96c05b3f7d(slot_5, r_zd);
    if (!(r_od == 0u)) goto l_core_pf;
    st32(r_s4, 32u);
    memset(r_uy, 0u, 12);
    st64(r_ky, 0xffffffffffffffffull);
    r_xw = ldp(r_lk);
    r_38_2 = ld64((slot_4 + 32));
    if (!(ld64(r_lp) == 0ull)) goto l_core_id;
    if (r_38_2 == 0ull) goto l_core_3b;
    r_e1_1 = (slot_5 + 1032);
    r_9w_1 = ld64(r_e1_1);
    r_uj_1 = r_38_2;
    r_35_1 = r_xw;
l_arm_65_1:;
    r_62_1 = away(r_35_1, 1ull);
    r_zn_1 = (r_uj_1 + 0xffffffffffffffffull);
    r_47_1 = ld8(r_35_1);
    if (!(r_9w_1 > 1023ull)) { r_km_1 = r_9w_1; goto l_std_41_1; }
    u8 r_m5_1 = std_io_io_buffer_Buffer_flush(slot_5);
    u64 r_38_3 = ld64(r_e1_1);
    if (r_m5_1 ? (r_38_3 < 1024ull) : 0u) { r_km_1 = r_38_3; goto l_std_41_1; }
    goto l_core_pf;
l_std_41_1:;
    st8((r_ix + (i64)(r_km_1)), r_47_1);
    u64 r_c4_1 = (r_km_1 + 1ull);
    st64(r_e1_1, r_c4_1);
    if (r_zn_1 == 0ull) goto l_core_3b;
    r_9w_1 = r_c4_1;
    r_uj_1 = r_zn_1;
    r_35_1 = r_62_1;
    goto l_arm_65_1;
l_core_pf:;
    mv24(r_s4, slot_1);
    r_b2 = 0u;
    goto l_join_2k;
l_core_3b:;
    mv24(r_s4, slot_1);
    goto l_arm_9c;
l_core_id:;
    u8 r_sr = core_fmt_formatter_Formatter_write_indented_bf264aed5fa78656(slot_5, r_xw, r_38_2);
    mv24(r_s4, slot_1);
    if (!(r_sr == 0u)) { r_b2 = 0u; goto l_join_2k; }
l_arm_9c:;
    mv24(slot_1, r_s4);
    st32(r_s4, 32u);
    memset(r_uy, 0u, 12);
    st64(r_ky, 0xffffffffffffffffull);
    if (!(ld64(r_lp) == 0ull)) goto l_else_7o;
    r_e1_2 = (slot_5 + 1032);
    u64 r_38_4 = ld64(r_e1_2);
    if (!(r_38_4 > 1023ull)) { r_4x = r_38_4; goto l_std_vs; }
    u8 r_m5_2 = std_io_io_buffer_Buffer_flush(slot_5);
    u64 r_38_5 = ld64(r_e1_2);
    if (r_m5_2 ? (r_38_5 < 1024ull) : 0u) { r_4x = r_38_5; goto l_std_vs; }
    r_bu = 0u;
    goto l_core_pf_1;
l_std_vs:;
    st8((r_ix + (i64)(r_4x)), 10u);
    st64(r_e1_2, (r_4x + 1ull));
    r_bu = 1u;
    goto l_core_pf_1;
l_else_7o:;
    u8 r_9h = core_fmt_formatter_Formatter_write_indented_bf264aed5fa78656(slot_5, ((u8 *)g_static_7), 1ull);
    r_bu = (r_9h == 0u);
l_core_pf_1:;
    mv24(r_s4, slot_1);
    r_b2 = r_bu;
l_join_2k:;
    st32(slot_1, ld32(slot_5));
    memcpy((slot_1 + 4), r_ix, 1132);
    u8 r_vx = std_io_io_buffer_Buffer_flush(slot_1);
    if (!(u8)((u8)r_b2 & (u8)r_vx)) goto l_join_to;
    memset(slot_3, 0u, 64);
    r_u5 = 0u;
    r_mz = 0u;
    r_pi = 0u;
    r_gx = 0u;
    r_wb = 0u;
    r_8b = 0u;
    r_59 = 0ull;
    r_nl = 0ull;
    goto l_std_jl;
l_join_to:;
    if (!(ld8((slot_1 + 1040)) == 1u)) goto l_arm_or;
    u8 r_r5 = ld8((slot_1 + 1048));
    u8 r_dd = ld8((slot_1 + 1049));
    u8 r_sw = ld8((slot_1 + 1050));
    u8 r_dd_1 = ld8((slot_1 + 1051));
    u32 r_uq = ld32((slot_1 + 1052));
    u64 r_38_6 = ld64((slot_1 + 1056));
    u64 r_38_7 = ld64((slot_1 + 1064));
    mv64(slot_2, (slot_1 + 1072));
    r_jt = r_r5;
    r_qc = r_dd;
    r_yd = r_sw;
    r_x1 = r_dd_1;
    r_g6 = r_uq;
    r_qc_1 = r_38_6;
    r_bi = r_38_7;
    goto l_join_qx;
l_arm_or:;
    memset(slot_2, 46u, 64);
    r_jt = 2u;
    r_qc = 41u;
    r_yd = 15u;
    r_x1 = 0u;
    r_g6 = 0u;
    r_qc_1 = 0x657474616d726f66ull;
    r_bi = 0x2e726f7272652072ull;
l_join_qx:;
    mv64(slot_3, slot_2);
    r_u5 = 1u;
    r_mz = r_jt;
    r_pi = r_qc;
    r_gx = r_yd;
    r_wb = r_x1;
    r_8b = r_g6;
    r_59 = r_qc_1;
    r_nl = r_bi;
l_std_jl:;
    mv64(slot_6, slot_3);
    mv64(slot_7, slot_6);
    st8(a_1, r_u5);
    st8(away(a_1, 8ull), r_mz);
    st8(away(a_1, 9ull), r_pi);
    st8(away(a_1, 10ull), r_gx);
    st8(away(a_1, 11ull), r_wb);
    st32(away(a_1, 12ull), r_8b);
    st64(away(a_1, 16ull), r_59);
    st64(away(a_1, 24ull), r_nl);
    mv64(away(a_1, 32ull), slot_7);
    return;
}
