{ lib, stdenv, fetchurl }:

stdenv.mkDerivation rec {
  pname = "capnp_canonical";
  version = "@VERSION@";

  src = fetchurl {
    url = "@URL@/${pname}-${version}.tar.gz";
    sha256 = "@SHA256@";
  };

  enableParallelBuilding = true;
  makeFlags = [ "PREFIX=$(out)" "CC=${stdenv.cc.targetPrefix}cc" "AR=${stdenv.cc.targetPrefix}ar" ];
  doCheck = stdenv.buildPlatform.canExecute stdenv.hostPlatform;
  checkTarget = "check";

  meta = with lib; {
    description = "Canonical form of Cap'n Proto messages, and readers and builders of untrusted ones in place";
    homepage = "https://capnproto.org/encoding.html#canonicalization";
    license = licenses.mit;
    platforms = [ "x86_64-linux" "aarch64-linux" "x86_64-darwin" "aarch64-darwin" ];
    mainProgram = "capnp_canon";
  };
}
