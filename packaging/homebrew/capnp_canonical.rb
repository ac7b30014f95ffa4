class CapnpCanonical < Formula
  desc "Canonical form of Cap'n Proto messages, and readers of untrusted ones"
  homepage "https://capnproto.org/encoding.html#canonicalization"
  url "@URL@/capnp_canonical-@VERSION@.tar.gz"
  sha256 "@SHA256@"
  license "MIT"

  def install
    system "make", "program", "check-layout"
    system "make", "install", "PREFIX=#{prefix}"
  end

  test do
    message = ["00000000040000000000000003000000", "11111111111111110000000000000080", "0000000000000000"]
    frame = [message.join].pack("H*")
    assert_equal frame.bytesize - 8, pipe_output("#{bin}/capnp_canon canon", frame, 0).bytesize
  end
end
