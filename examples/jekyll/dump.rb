# A plug-in of Jekyll 4, for the folder _plugins of a site: it writes what each text of the site is rendered from to the
# folder dump, and what Jekyll makes of it. docs/guide/MIGRATING.md says how `liquid page --jekyll` renders the same.
require "fileutils"
require "json"

module LiquidDump
  NEIGHBOURS = %w(next previous).freeze
  RENDERED = Hash.new { |all, filter| all[filter] = {} }

  # Returns a value as JSON has it. The neighbours of a document come without their own.
  def self.plain(value, inside = [])
    return value.to_s if value.is_a?(Jekyll::Excerpt)
    case value = value.to_liquid
    when nil, true, false, Integer, Float then value
    when Time, Date then value.strftime(value.is_a?(Time) ? "%F %T %z" : "%F")
    when Array then value.map { |item| plain(item, inside) }
    when Hash, Jekyll::Drops::Drop
      return value.to_s if value.is_a?(Jekyll::Drops::ExcerptDrop)
      keys = value.keys - ((inside & NEIGHBOURS).empty? ? [] : NEIGHBOURS)
      keys.to_h { |key| [key.to_s, plain(value[key], inside | [key])] }
    when Liquid::Drop then value.respond_to?(:to_h) ? plain(value.to_h, inside) : nil
    else value.to_s
    end
  end

  def self.write(path, text)
    FileUtils.mkdir_p(File.dirname("dump/#{path}"))
    File.write("dump/#{path}", text)
  end

  # What these filters return takes a reader of Markdown or of Sass, so it is kept.
  module Filters
    %w(markdownify smartify sassify scssify).each do |name|
      define_method(name) { |input| super(input).tap { |text| RENDERED[name][input.to_s] = text } }
    end
  end

  module Texts
    @@is_busy = false

    # A dump of the data renders excerpts, which aren't dumped themselves.
    def render_liquid(content, payload, info, path = nil)
      return super if @@is_busy
      @@is_busy = true
      data = JSON.generate(LiquidDump.plain(payload))
      @@is_busy = false
      folder = "#{document.relative_path}/#{@texts = @texts.to_i + 1}"
      LiquidDump.write("#{folder}/template", content)
      LiquidDump.write("#{folder}/data.json", data)
      super.tap { |page| LiquidDump.write("#{folder}/page", page) }
    end
  end
end

Liquid::Template.register_filter(LiquidDump::Filters)
Jekyll::Renderer.prepend(LiquidDump::Texts)
Jekyll::Hooks.register(:site, :post_render) do |site|
  LiquidDump.write("rendered.json", JSON.generate(LiquidDump::RENDERED))
  FileUtils.mkdir_p("dump/includes")
  site.includes_load_paths.reverse_each { |from| FileUtils.cp_r("#{from}/.", "dump/includes") if File.directory?(from) }
end
