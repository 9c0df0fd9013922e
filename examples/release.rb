# Constants of shareable values, which all ractors may have, and a copy that is shareable.
LIMITS = Ractor.make_shareable({"small" => [1, 10], "large" => [11, 100]})

LIMITS.each do |name, bounds|
  first, last = bounds
  puts "#{name}: #{first} to #{last}"
end

draft = ["cover", "preface"]
RELEASE = Ractor.make_shareable(draft, copy: true)
draft << "appendix"
p draft, RELEASE
p draft.frozen?, RELEASE.frozen?, Ractor.shareable?(RELEASE)
