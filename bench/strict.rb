# Takes away from CRuby what the language leaves out, and refuses arguments as the language does. bench/profile.rb loads it last, when
# the script is compiled, where STRICT is set in the environment: CRuby's own libraries use what goes here.
class Integer
  undef_method :size, :[], :<<
end

class String
  undef_method :sum, :%, :[]=, :delete

  module Strict
    def *(count)
      raise ArgumentError, "argument must be non-negative" if Integer === count && count < 0
      super
    end

    def [](place) = Integer === place ? super : raise(TypeError, "wrong type #{PF.cls(place)}")
    def include?(text) = String === text ? super : raise(TypeError, "wrong type #{PF.cls(text)}")
    def <=>(text) = String === text ? super : nil
  end
  prepend Strict
end

class Symbol
  undef_method :size, :length, :[], :empty?, :<, :>, :<=, :>=
end

class Array
  undef_method :-, :*, :<=>, :delete

  module Strict
    def [](place) = Integer === place ? super : raise(TypeError, "wrong type #{PF.cls(place)}")

    def []=(place, value)
      raise FrozenError.new("", receiver: self) if frozen?
      Integer === place ? super : raise(TypeError, "wrong type #{PF.cls(place)}")
    end

    def join(separator = nil)
      raise TypeError, "wrong type #{PF.cls(separator)}" unless separator.nil? || String === separator || empty?
      super(separator || "")
    end

    def sum
      each { |element| raise TypeError, "wrong type #{PF.cls(element)}" unless Integer === element }
      super
    end
  end
  prepend Strict
end

class Hash
  undef_method :first, :shift, :sum, :include?, :<, :>, :<=, :>=, :map, :select, :each_with_index

  module Strict
    def []=(key, value)
      frozen? ? raise(FrozenError.new("", receiver: self)) : super
    end

    def delete(key)
      frozen? ? raise(FrozenError.new("", receiver: self)) : super
    end
  end
  prepend Strict
end

class Ractor::ClosedError
  remove_method :message
end

module Kernel
  undef_method :<=>
  alias pf_is_a is_a?
  def is_a?(other) = Class === other ? pf_is_a(other) : raise(TypeError, "wrong type #{PF.cls(other)}")
end
