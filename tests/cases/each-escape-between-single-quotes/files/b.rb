class A
  def f
    '\\'
    '\''
    '\n'
    '\q'
    '#{x}'
    '"'
  end
end
