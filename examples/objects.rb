# Accounts, one of which adds interest to what is paid in.
class Account
  attr_reader :owner, :balance

  def initialize(owner)
    @owner = owner
    @balance = 0
  end

  def deposit(amount)
    raise ArgumentError, "no amount" unless amount > 0
    @balance = @balance + amount
    self
  end

  def <(other)
    balance < other.balance
  end
end

class Savings < Account
  attr_accessor :rate

  def deposit(amount)
    super(amount + amount * rate / 100)
  end
end

ann = Account.new("Ann").deposit(200)
bob = Savings.new("Bob")
bob.rate = 5
bob.deposit(100).deposit(100)

[ann, bob].each { |account| puts "#{account.owner}: #{account.balance}" }
puts "Ann has less" if ann < bob

begin
  bob.deposit(0)
rescue ArgumentError => e
  puts e.message
end
