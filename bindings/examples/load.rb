# Loads a file over an environment, in Ruby.
require 'fiddle/import'

module Dotenvy
  extend Fiddle::Importer
  dlload ENV.fetch('LIBDOTENVY', 'libdotenvy.so.1')
  Answer = struct ['unsigned int status', 'char fits', 'size_t index', 'size_t block_len', 'size_t text_len',
                   'unsigned long long reserved[2]']
  extern 'unsigned int dotenvy_load(void *, size_t, void *, size_t, unsigned int, void *, void *, size_t)'
end

file = "HOST=localhost\nURL=http://${HOST}:${PORT}/\nUSER=a b\n"
block = "PORT=9\0"
answer = Dotenvy::Answer.malloc(Fiddle::RUBY_FREE)
load = lambda do |out|
  Dotenvy.dotenvy_load(file, file.bytesize, block, block.bytesize, 0, answer, out, out.bytesize)
end
load.call('') # how long is the result?
out = "\0" * (answer.block_len + answer.text_len)
load.call(out)
raise "status #{answer.status}" unless answer.fits == 1

puts out.byteslice(0, answer.block_len).split("\0")
puts "error #{answer.status}: #{out.byteslice(answer.block_len..)}" unless answer.status.zero?
