class A
  def f
    1
  end
end
# @type var y: Integer
